//! Reads a job from standard input and prints its sheet.
#![forbid(unsafe_code)]

use std::io::{self, Read, Write};

fn main() -> io::Result<()> {
    let mut job = Vec::new();
    io::stdin().lock().take(second::desk::INPUT).read_to_end(&mut job)?;
    io::stdout().write_all(second::sheet(&job).as_bytes())
}
