//! The cases of tests/data: card B with every short word, and the heaviest cards.

use crate::lines::run;
use crate::samples;

/// A card, lines, and by them what the program has to print.
pub struct Case {
    pub name: &'static str,
    pub card: Vec<u8>,
    lines: Vec<String>,
}

fn line(ranking: &str, word: impl IntoIterator<Item = u8>) -> String {
    let symbols: Vec<String> = word.into_iter().map(|symbol| symbol.to_string()).collect();
    format!("{ranking} {}", symbols.join(","))
}

/// All six rankings of three machines, all words of at most four symbols, 1 and 2.
fn short_words() -> Vec<String> {
    let mut lines = Vec::new();
    for ranking in ["012", "021", "102", "120", "201", "210"] {
        for length in 0..=4 {
            for number in 0..1u8 << length {
                lines.push(line(ranking, (0..length).rev().map(|place| 1 + (number >> place & 1))));
            }
        }
    }
    lines
}

/// Words of 24 symbols under some rankings.
fn long_words(rankings: &[&str], symbols: u8) -> Vec<String> {
    let low = (0..24).map(|place| 1 + place % symbols);
    let high = (0..24).map(|place| symbols - place * 5 % symbols);
    let words = [vec![symbols; 24], low.collect(), high.collect()];
    rankings.iter().zip(words.into_iter().cycle()).map(|(ranking, word)| line(ranking, word)).collect()
}

/// More lines than are answered, a bad one among every hundred.
fn lesson() -> Vec<String> {
    let lines = (1..).zip(short_words().into_iter().cycle());
    lines.map(|(number, line)| if number % 100 == 0 { "?".to_string() } else { line }).take(1_002).collect()
}

pub fn cases() -> Vec<Case> {
    let six = ["012345", "543210", "204153"];
    let case = |name, card, lines| Case { name, card, lines };
    vec![
        case("card_b", samples::card_b(), short_words()),
        case("card_b_ending", samples::card_b_ending(), short_words()),
        case("card_b_kinds", samples::card_b_kinds(), short_words()),
        case("lesson", samples::card_b(), lesson()),
        case("chain", samples::chain(), [long_words(&["01", "10"], 3), vec![line("01", [])]].concat()),
        case("chain_ending", samples::chain_ending(), long_words(&["01", "10"], 3)),
        case("chain_full", samples::chain_full(), long_words(&["012345", "543210"], 63)),
        case("shortcuts", samples::shortcuts(), long_words(&["012", "210", "102"], 63)),
        case("full", samples::full(), long_words(&six, 63)),
        case("none", samples::none(), long_words(&six, 63)),
    ]
}

impl Case {
    pub fn input(&self) -> String {
        self.lines.iter().map(|line| format!("{line}\n")).collect()
    }

    pub fn answers(&self) -> String {
        run(&self.card, self.input().as_bytes())
    }
}
