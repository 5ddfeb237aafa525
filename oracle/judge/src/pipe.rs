//! The other side: a program that reads calls and writes answers.

use std::io::{Error, Read, Result, Write};
use std::process::{Command, Stdio};

/// Starts the program, gives it the whole input and takes the whole output.
pub fn run(command: &[String], input: &[u8]) -> Result<Vec<u8>> {
    let (program, arguments) = command
        .split_first()
        .ok_or_else(|| Error::other("no program to compare with"))?;
    let mut child = Command::new(program)
        .args(arguments)
        .stdin(Stdio::piped())
        .stdout(Stdio::piped())
        .spawn()?;
    let mut stdin = child.stdin.take().ok_or_else(|| Error::other("no input"))?;
    let mut stdout = child
        .stdout
        .take()
        .ok_or_else(|| Error::other("no output"))?;
    let mut output = Vec::with_capacity(input.len() * 8);
    std::thread::scope(|scope| {
        // A program that stops early closes its input; its output then tells.
        scope.spawn(move || stdin.write_all(input));
        stdout.read_to_end(&mut output)
    })?;
    let status = child.wait()?;
    if !status.success() {
        eprintln!("{program} ended with {status}");
    }
    Ok(output)
}
