//! Reads all of standard input and prints its listing.

#![forbid(unsafe_code)]

use std::io::{self, Read, Write};

fn main() -> io::Result<()> {
    let mut input = Vec::new();
    io::stdin().lock().read_to_end(&mut input)?;
    let mut out = io::stdout().lock();
    out.write_all(&opinion::listing(&input))?;
    out.flush()
}
