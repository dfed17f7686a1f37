//! Answers a sheet from standard input, as `callsheet` does.
use std::io::{self, Read, Write};

fn main() -> io::Result<()> {
    let mut sheet = Vec::new();
    io::stdin().read_to_end(&mut sheet)?;
    io::stdout().write_all(&reference::sheet::answer(&sheet))
}
