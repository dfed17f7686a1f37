//! `peer` answers a sheet from standard input; `peer growth ROWS TIMES` times holds as the program `growth` does.
use std::env;
use std::io::{self, Read, Write};

/// Reads no more than it takes to see that a sheet is too long.
fn run_sheet() -> io::Result<()> {
    let mut sheet = Vec::with_capacity(peer::sheet::MOST_BYTES + 1);
    io::stdin().lock().take(peer::sheet::MOST_BYTES as u64 + 1).read_to_end(&mut sheet)?;
    io::stdout().write_all(peer::sheet::answer(&sheet).as_bytes())
}

fn main() -> io::Result<()> {
    let words: Vec<String> = env::args().skip(1).collect();
    match words.as_slice() {
        [mode, rows, times] if mode == "growth" => match (rows.parse(), times.parse()) {
            (Ok(rows), Ok(times)) => println!("{}", peer::growth::measure(rows, times)),
            _ => eprintln!("peer: growth takes two numbers"),
        },
        _ => run_sheet()?,
    }
    Ok(())
}
