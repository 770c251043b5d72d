//! Calls as lines of text with the answers of this implementation, as tests/coverage keeps them (`reference::written`).
//!
//!     calls SEED COUNT   calls by chance, a search by both engines
//!     calls -            the calls of standard input, answered anew

use reference::generators::Generator;
use reference::random::Random;
use reference::written::{line, read, single_calls};
use std::io::{self, BufRead, BufWriter, Write};
use std::process::ExitCode;

fn main() -> ExitCode {
    let words: Vec<String> = std::env::args().skip(1).collect();
    let words: Vec<&str> = words.iter().map(String::as_str).collect();
    let mut out = BufWriter::new(io::stdout());
    let done = match words[..] {
        ["-"] => io::stdin().lock().lines().try_for_each(|text| {
            let text = text?;
            let question = text.split(" =").next().expect("a part at least");
            let answer = line(&read(question));
            let answer = answer.split(" = ").nth(1).expect("an answer");
            writeln!(out, "{question} = {answer}")
        }),
        [seed, count] => match (seed.parse(), count.parse()) {
            (Ok(seed), Ok(count)) => by_chance(&mut out, seed, count),
            _ => return usage(),
        },
        _ => return usage(),
    };
    done.and_then(|()| out.flush()).expect("standard output");
    ExitCode::SUCCESS
}

fn usage() -> ExitCode {
    eprintln!("calls SEED COUNT, or calls - for those of standard input");
    ExitCode::from(2)
}

/// The calls that `compare` makes for a seed.
fn by_chance(out: &mut impl Write, seed: u64, count: usize) -> io::Result<()> {
    let generator = Generator::default();
    let mut seeds = Random::new(seed);
    for _ in 0..count {
        let call = generator.call(&mut Random::new(seeds.number()));
        let twin = call.twin();
        for call in single_calls(&call).into_iter().chain(twin) {
            writeln!(out, "{}", line(&call))?;
        }
    }
    Ok(())
}
