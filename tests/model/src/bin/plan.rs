//! Reads a sheet from standard input and prints its plan, or `refused` and the number.

use std::io::{Read, Write};

fn main() -> std::io::Result<()> {
    let mut text = Vec::new();
    std::io::stdin().read_to_end(&mut text)?;
    let printed = model::text::printed(&text);
    std::io::stdout().write_all(printed.as_bytes())
}
