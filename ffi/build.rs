//! Links the static library that `ffi/build-library` builds, or the one whose whole path the variable
//! `VINDACSOR_LIBRARY` holds.

use std::path::{Path, PathBuf};

const VARIABLE: &str = "VINDACSOR_LIBRARY";

fn main() {
    let own = "../target/staticlib/libvindacsor.a".to_string();
    let given = std::env::var(VARIABLE).unwrap_or(own);
    let archive = Path::new(env!("CARGO_MANIFEST_DIR")).join(given);
    assert!(
        archive.is_file(),
        "{} is missing: run `ffi/build-library` first",
        archive.display()
    );
    // The linker goes by the name, which another library need not have.
    let folder = PathBuf::from(std::env::var_os("OUT_DIR").expect("set by cargo"));
    std::fs::copy(&archive, folder.join("libvindacsor.a")).expect("a copy of the library");
    println!("cargo:rerun-if-env-changed={VARIABLE}");
    println!("cargo:rerun-if-changed={}", archive.display());
    println!("cargo:rustc-link-search=native={}", folder.display());
    println!("cargo:rustc-link-lib=static=vindacsor");
}
