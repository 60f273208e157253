//! Reads a sheet on standard input and prints the listing, or `refused` and the
//! number.

use std::io::{self, Read};

fn main() -> io::Result<()> {
    let mut sheet = Vec::new();
    io::stdin().read_to_end(&mut sheet)?;
    match peer::list(&sheet) {
        Ok(listing) => print!("{listing}"),
        Err(refusal) => println!("refused {refusal}"),
    }
    Ok(())
}
