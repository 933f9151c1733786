//! A program that plays run scripts: bytes on its standard input, lines on its standard output.

use std::io::Write;
use std::process::{Command, Stdio};
use std::thread;

/// What the program prints for a script; it may stop reading early.
pub fn output_of(program: &str, script: &[u8]) -> Result<Vec<u8>, String> {
    let mut child = Command::new(program)
        .stdin(Stdio::piped())
        .stdout(Stdio::piped())
        .spawn()
        .map_err(|error| format!("{program}: {error}"))?;
    let mut input = child.stdin.take().expect("standard input is piped");
    let script = script.to_vec();
    let writer = thread::spawn(move || {
        let _ = input.write_all(&script);
    });
    let output = child.wait_with_output().map_err(|error| format!("{program}: {error}"))?;
    writer.join().expect("the writer ends");
    if !output.status.success() {
        return Err(format!("{program}: {}", output.status));
    }
    Ok(output.stdout)
}
