//! Writes the corpus of the test program `test_corpus`: its calls to data/cases, what has to be printed to stdout.
//!
//!     corpus DIRECTORY

use reference::corpus::corpus;
use std::path::Path;

fn main() -> std::io::Result<()> {
    let words: Vec<String> = std::env::args().skip(1).collect();
    let directory = match &words[..] {
        [directory] => directory,
        _ => {
            eprintln!("corpus DIRECTORY");
            return Ok(());
        }
    };
    let (place, corpus) = (Path::new(directory), corpus());
    std::fs::create_dir_all(place.join("data"))?;
    std::fs::write(place.join("data/cases"), &corpus.cases)?;
    std::fs::write(place.join("stdout"), &corpus.lines)?;
    println!("{} calls, {} bytes", corpus.count, corpus.cases.len());
    Ok(())
}
