//! Writes the cases of tests/data: for each a directory with a card, lines, and the answers of this implementation.
//!
//!     cases DIRECTORY      write them all
//!     cases print NAME     print the answers of one

use reference::cases::cases;
use std::path::Path;

fn main() -> std::io::Result<()> {
    let words: Vec<String> = std::env::args().skip(1).collect();
    match words.iter().map(String::as_str).collect::<Vec<_>>()[..] {
        ["print", name] => {
            for case in cases().iter().filter(|case| case.name == name) {
                print!("{}", case.answers());
            }
        }
        [directory] => {
            for case in cases() {
                let place = Path::new(directory).join(case.name);
                std::fs::create_dir_all(&place)?;
                std::fs::write(place.join("card.bin"), &case.card)?;
                std::fs::write(place.join("stdin"), case.input())?;
                std::fs::write(place.join("stdout"), case.answers())?;
            }
        }
        _ => eprintln!("cases DIRECTORY, or cases print NAME"),
    }
    Ok(())
}
