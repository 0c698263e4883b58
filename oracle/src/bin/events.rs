//! The twin of the program `events`: a script from standard input, run on the customer's tables.

use oracle::script::{INPUT_MOST, events};
use std::io::{Read, Write};

fn main() -> std::io::Result<()> {
    let mut input = Vec::with_capacity(INPUT_MOST + 1);
    std::io::stdin().lock().take(INPUT_MOST as u64 + 1).read_to_end(&mut input)?;
    std::io::stdout().lock().write_all(&events(&input))
}
