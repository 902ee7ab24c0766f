//! The tuned engine as a program: records from standard input, records to standard output.

use std::io::{self, Read, Write};

use bench::tuned::key_of;

fn main() -> io::Result<()> {
    let (mut input, mut output) = (Vec::new(), Vec::new());
    io::stdin().lock().read_to_end(&mut input)?;
    key_of(&input, &mut output);
    io::stdout().lock().write_all(&output)
}
