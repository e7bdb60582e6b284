//! Prints the transcript of the input on standard input, as the proved replay program has to.

use std::io::{self, Read, Write};

fn main() -> io::Result<()> {
    let mut input = Vec::new();
    io::stdin().read_to_end(&mut input)?;
    io::stdout().write_all(reference::replay::transcript(&input).as_bytes())
}
