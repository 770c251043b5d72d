//! The board's program by the second implementation: the card from `card.bin`, lines from standard input.

use std::io::{Read, Write};

fn main() {
    let card = std::fs::read("card.bin").unwrap_or_default();
    let mut input = Vec::new();
    std::io::stdin().read_to_end(&mut input).expect("standard input");
    let text = reference::lines::run(&card, &input);
    std::io::stdout().write_all(text.as_bytes()).expect("standard output");
}
