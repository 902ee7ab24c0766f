//! Running a program on an input.

use std::io::{self, Read, Write};
use std::process::{Command, Stdio};
use std::thread;

/// What the program at a path writes for an input.
pub fn run_program(path: &str, input: &[u8]) -> io::Result<Vec<u8>> {
    let mut child = Command::new(path)
        .stdin(Stdio::piped())
        .stdout(Stdio::piped())
        .spawn()?;
    let mut stdin = child.stdin.take().expect("it was asked for");
    let mut stdout = child.stdout.take().expect("it was asked for");
    let mut output = Vec::new();
    // Written from a thread of its own, so that two full pipes cannot block each other.
    let (written, read) = thread::scope(|scope| {
        let writer = scope.spawn(move || stdin.write_all(input));
        let read = stdout.read_to_end(&mut output);
        (writer.join(), read)
    });
    let status = child.wait()?;
    read?;
    if !status.success() {
        return Err(io::Error::other(format!("{path} ended with {status}")));
    }
    match written.expect("the writer does not panic") {
        // A program that does not read to the end is told by what it writes.
        Err(error) if error.kind() != io::ErrorKind::BrokenPipe => Err(error),
        _ => Ok(output),
    }
}
