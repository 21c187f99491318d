//! What the comparison programs share: a call of the proved library held against the reply of
//! the second implementation, and bytes that are damaged job files.

pub mod call;
pub mod damage;
pub mod files;
pub mod numbers;
pub mod program;
pub mod whole;
