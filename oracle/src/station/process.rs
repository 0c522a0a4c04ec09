//! The program under comparison, as a process of its own for each input.

use std::io::{self, Read, Write};
use std::process::{Command, Stdio};
use std::thread;

/// Where `./build` leaves it, from the repository's root.
const PROGRAM: &str = "target/bin/station";

/// What the program writes, given this input.
pub fn run(input: &[u8]) -> io::Result<Vec<u8>> {
    let mut child = Command::new(PROGRAM)
        .stdin(Stdio::piped())
        .stdout(Stdio::piped())
        .spawn()?;
    let mut stdin = child.stdin.take().expect("the input is a pipe");
    let mut stdout = child.stdout.take().expect("the output is a pipe");
    let mut output = Vec::new();
    // A long output would stop the program before it has read all: the input is written beside.
    thread::scope(|scope| {
        scope.spawn(move || match stdin.write_all(input) {
            // It may end before it has read all.
            Err(error) if error.kind() != io::ErrorKind::BrokenPipe => Err(error),
            _ => Ok(()),
        });
        stdout.read_to_end(&mut output)
    })?;
    let status = child.wait()?;
    if !status.success() {
        return Err(io::Error::other(format!("the program ended with {status}")));
    }
    Ok(output)
}
