//! Reads what a run call is lent and tuples from standard input and writes the outcome and the count of each.
#![forbid(unsafe_code)]

use std::io::{self, Read, Write};

fn main() -> io::Result<()> {
    let mut input = Vec::new();
    io::stdin().read_to_end(&mut input)?;
    io::stdout().write_all(second::evaluate(&input).as_bytes())
}
