//! A program that is run on a file.

use std::io::{Read, Write};
use std::process::{Command, Stdio};
use std::sync::mpsc::channel;
use std::thread;
use std::time::Duration;

/// The listing program, where `rt run` in its crate leaves it.
pub const LISTING: &str = concat!(
    env!("CARGO_MANIFEST_DIR"),
    "/../../crates/listing/out/listing"
);

/// What the listing program prints for a file, which is text where it is as it should be.
pub fn listed(file: &[u8]) -> String {
    let text = printed(LISTING, file).expect("the program ends");
    String::from_utf8_lossy(&text).into_owned()
}

/// How long the program may take for one file.
const PATIENCE: Duration = Duration::from_secs(60);

/// What the program prints for a file.
pub fn printed(program: &str, file: &[u8]) -> Result<Vec<u8>, String> {
    let mut process = Command::new(program)
        .stdin(Stdio::piped())
        .stdout(Stdio::piped())
        .spawn()
        .map_err(|error| format!("{program}: {error}"))?;
    let mut input = process.stdin.take().expect("a pipe");
    let mut output = process.stdout.take().expect("a pipe");
    let bytes = file.to_vec();
    // The program may stop reading where a file is too long; then writing fails, as it may.
    let writer = thread::spawn(move || drop(input.write_all(&bytes)));
    let (sender, text) = channel();
    let reader = thread::spawn(move || {
        let mut text = Vec::new();
        let read = output.read_to_end(&mut text);
        let _ = sender.send(read.map(|_| text));
    });
    let text = text.recv_timeout(PATIENCE);
    if text.is_err() {
        let _ = process.kill();
    }
    let status = process.wait().map_err(|error| error.to_string())?;
    let _ = (writer.join(), reader.join());
    match text {
        Err(_) => Err(format!("no end within {} s", PATIENCE.as_secs())),
        Ok(Err(error)) => Err(error.to_string()),
        Ok(Ok(_)) if !status.success() => Err(format!("ended with {status}")),
        Ok(Ok(text)) => Ok(text),
    }
}
