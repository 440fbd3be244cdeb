//! What the paper has the program print for the text on standard input.

#[path = "../paper/mod.rs"]
mod paper;

use std::io::{self, Read, Write};

fn main() -> io::Result<()> {
    paper::check();
    let mut ticket = Vec::new();
    io::stdin().read_to_end(&mut ticket)?;
    io::stdout().write_all(&paper::program::printed(&ticket))
}
