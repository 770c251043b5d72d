//! The program's lines, and the two that close them.

use crate::card::read_card;
use crate::optimizer::optimize;

/// The most lines that are answered.
const MOST_LINES: usize = 1_000;

/// A line's ranking and word, or nothing where its form is another. Nothing after the space is the empty word.
pub fn parse(line: &[u8]) -> Option<(Vec<u8>, Vec<u8>)> {
    if line.len() > 200 {
        return None;
    }
    let space = line.iter().position(|&byte| byte == b' ')?;
    let (digits, rest) = (&line[..space], &line[space + 1..]);
    if digits.is_empty() || digits.len() > 9 || !digits.iter().all(u8::is_ascii_digit) {
        return None;
    }
    let ranking = digits.iter().map(|byte| byte - b'0').collect();
    let mut word = Vec::new();
    if rest.is_empty() {
        return Some((ranking, word));
    }
    for number in rest.split(|&byte| byte == b',') {
        if number.is_empty() || number.len() > 3 || !number.iter().all(u8::is_ascii_digit) {
            return None;
        }
        let value = number.iter().fold(0u16, |sum, byte| sum * 10 + (byte - b'0') as u16);
        word.push(u8::try_from(value).ok()?);
    }
    Some((ranking, word))
}

/// What the program prints for a line, without the line end.
pub fn answer(card: &[u8], line: &[u8]) -> String {
    let (ranking, word) = match parse(line) {
        Some(parsed) => parsed,
        None => return "bad line".to_string(),
    };
    let mut bytes = [0; 6_398];
    match optimize(card, &ranking, &word, 25_600, &mut bytes) {
        Err(number) => format!("refused {number}"),
        Ok(result) => {
            let counts: Vec<String> = result.profile[..ranking.len()].iter().map(u16::to_string).collect();
            let pairs = bytes.chunks(2).take(result.pairs).map(|pair| format!(" {}:{}", pair[0], pair[1]));
            counts.join(",") + &pairs.collect::<String>()
        }
    }
}

/// The counts of a printed line, or nothing where the line was not answered.
fn printed_counts(line: &str) -> Option<Vec<u64>> {
    line.split(' ').next()?.split(',').map(|count| count.parse().ok()).collect()
}

/// The closing lines under these: how many are answered and refused, and each machine's counts added up.
fn closing_lines(card: &[u8], printed: &[String]) -> [String; 2] {
    let answered: Vec<Vec<u64>> = printed.iter().filter_map(|line| printed_counts(line)).collect();
    let refused = printed.len() - answered.len();
    let machines = read_card(card).map_or(0, |card| card.machines.len());
    let sum = |machine: usize| answered.iter().map(|counts| counts[machine]).sum::<u64>();
    let totals: Vec<String> = (0..machines).map(|machine| sum(machine).to_string()).collect();
    let total = ["total".to_string(), totals.join(",")].join(" ");
    [format!("answered {} refused {refused}", answered.len()), total.trim_end().to_string()]
}

/// What the program prints for its whole input. A line past the thousandth ends it, whatever its form, with refusal 22.
pub fn run(card: &[u8], input: &[u8]) -> String {
    let card = &card[..card.len().min(30_831)];
    let lines: Vec<&[u8]> = input.split_inclusive(|&byte| byte == 10).collect();
    let answered = lines.iter().take(MOST_LINES);
    let printed: Vec<String> = answered.map(|line| answer(card, line.strip_suffix(b"\n").unwrap_or(line))).collect();
    let too_many = (lines.len() > MOST_LINES).then(|| "refused 22".to_string());
    let closing = closing_lines(card, &printed);
    printed.into_iter().chain(too_many).chain(closing).map(|line| line + "\n").collect()
}
