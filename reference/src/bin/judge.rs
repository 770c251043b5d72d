//! Says whether a tableau is right for the card in `card.bin`.
//!
//!     judge RANKING WORD FILE      ranking and word as in a line of the program

use reference::tableau::say;

fn main() -> std::io::Result<()> {
    let words: Vec<String> = std::env::args().skip(1).collect();
    let (ranking, word, file) = match &words[..] {
        [ranking, word, file] => (ranking, word, file),
        _ => {
            eprintln!("judge RANKING WORD FILE");
            return Ok(());
        }
    };
    let card = std::fs::read("card.bin").unwrap_or_default();
    println!("{}", say(&card, &format!("{ranking} {word}"), &std::fs::read(file)?));
    Ok(())
}
