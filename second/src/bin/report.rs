//! The report program over the second program: reads a trace from standard input and prints its report or its refusal.

use second::program;
use std::io::{self, Read, Write};

fn main() -> io::Result<()> {
    let mut input = vec![];
    io::stdin().read_to_end(&mut input)?;
    io::stdout().write_all(program::printed(&input).as_bytes())
}
