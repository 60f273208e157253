//! Reads a seed and a count of records on standard input and writes their sheet, or
//! `refused 2`.

use std::io::{self, Read, Write};

fn main() -> io::Result<()> {
    let mut input = Vec::new();
    io::stdin().read_to_end(&mut input)?;
    let mut output = io::stdout();
    output.write_all(&peer::seed::print(&input))?;
    output.flush()
}
