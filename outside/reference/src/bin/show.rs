//! Reads a house file from standard input and prints its samples, or its refusal.

use std::io::{Read, Write};

/// Prints what document 01 says of `show`.
fn main() -> std::io::Result<()> {
    let mut bytes = Vec::new();
    std::io::stdin().read_to_end(&mut bytes)?;
    std::io::stdout().write_all(reference::file::show(&bytes).as_bytes())
}
