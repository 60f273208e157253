//! Reads a sheet on standard input and prints a line in words for each record, or
//! `refused 2`.

use std::io::{self, Read};

fn main() -> io::Result<()> {
    let mut sheet = Vec::new();
    io::stdin().read_to_end(&mut sheet)?;
    match peer::words::explained(&sheet) {
        Ok(text) => print!("{text}"),
        Err(refusal) => println!("refused {refusal}"),
    }
    Ok(())
}
