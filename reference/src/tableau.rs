//! Tableaux: layout, checks 19, 20, 21, and whether one is right for a card, a ranking and a word.

use crate::candidate::{profile, read_candidate, Pair};
use crate::card::Card;
use crate::lines::parse;
use crate::optimizer::{best, checked};
use crate::ranking::harmony;
use crate::{Profile, Refusal};
use std::cmp::Ordering;
use std::fmt;

/// What is said of a tableau.
#[derive(Clone, Copy, Debug, PartialEq, Eq)]
pub enum Verdict {
    /// The claimed row wins.
    Right,
    /// Another row wins: the first that does.
    AnotherRow(u8),
    /// No row wins.
    NotInTheTable,
}

impl fmt::Display for Verdict {
    fn fmt(&self, text: &mut fmt::Formatter) -> fmt::Result {
        match self {
            Verdict::Right => write!(text, "right"),
            Verdict::AnotherRow(row) => write!(text, "another row {row}"),
            Verdict::NotInTheTable => write!(text, "not in the table"),
        }
    }
}

#[derive(Clone, Debug, PartialEq, Eq)]
pub struct Row {
    pub counts: Profile,
    /// The candidate's bytes as they were sent.
    pub candidate: Vec<u8>,
}

impl Row {
    /// The row's part of a tableau.
    pub fn bytes(&self) -> Vec<u8> {
        let counts = self.counts.iter().flat_map(|count| count.to_le_bytes());
        counts.chain(self.candidate.iter().copied()).collect()
    }
}

#[derive(Clone, Debug, PartialEq, Eq)]
pub struct Tableau {
    pub claimed: u8,
    pub rows: Vec<Row>,
}

impl Tableau {
    pub fn bytes(&self) -> Vec<u8> {
        lay_out(self.claimed, &self.rows.iter().map(Row::bytes).collect::<Vec<_>>())
    }
}

/// Rows laid out as a tableau, without a check.
pub fn lay_out(claimed: u8, rows: &[Vec<u8>]) -> Vec<u8> {
    let mut tableau = vec![rows.len() as u8, claimed];
    let mut offset = 2 + 4 * rows.len();
    for row in rows {
        tableau.extend((offset as u16).to_le_bytes());
        tableau.extend((row.len() as u16).to_le_bytes());
        offset += row.len();
    }
    tableau.extend(rows.concat());
    tableau
}

/// A tableau for so many machines: refusal 19.
pub fn read_tableau(bytes: &[u8], machines: usize) -> Result<Tableau, Refusal> {
    let (count, claimed) = match *bytes {
        [count, claimed, ..] => (count, claimed),
        _ => return Err(19),
    };
    if !(1..=32).contains(&count) || claimed >= count {
        return Err(19);
    }
    let start = 2 + 4 * count as usize;
    let table = bytes.get(2..start).ok_or(19)?;
    let mut rows = Vec::new();
    let mut rest = &bytes[start..];
    for place in table.chunks(4) {
        let offset = u16::from_le_bytes([place[0], place[1]]) as usize;
        let length = u16::from_le_bytes([place[2], place[3]]) as usize;
        if offset != bytes.len() - rest.len() || length < 12 || length > rest.len() {
            return Err(19);
        }
        let (row, more) = rest.split_at(length);
        let counts = std::array::from_fn(|machine| u16::from_le_bytes([row[2 * machine], row[2 * machine + 1]]));
        rows.push(Row { counts, candidate: row[12..].to_vec() });
        rest = more;
    }
    let unused = |row: &Row| row.counts[machines..].iter().any(|&count| count != 0);
    if !rest.is_empty() || rows.iter().any(unused) {
        return Err(19);
    }
    Ok(Tableau { claimed, rows })
}

/// The profile of a row's candidate for a word: refusal 20.
fn row_profile(card: &Card, word: &[u8], row: &Row) -> Result<Profile, Refusal> {
    let candidate: Vec<Pair> = read_candidate(card.symbols, &row.candidate).map_err(|_| 20)?;
    let spelled = candidate.iter().map(|&(input, _)| input).filter(|&input| input != 0);
    if !spelled.eq(word.iter().copied()) {
        return Err(20);
    }
    profile(&card.machines, &candidate).ok_or(20)
}

/// The verdict from which rows win.
pub fn verdict(claimed: u8, wins: &[bool]) -> Verdict {
    match wins.iter().position(|&wins| wins) {
        _ if wins[claimed as usize] => Verdict::Right,
        Some(row) => Verdict::AnotherRow(row as u8),
        None => Verdict::NotInTheTable,
    }
}

/// What is said of a tableau for a card and a line with ranking and word, in words.
pub fn say(card: &[u8], line: &str, tableau: &[u8]) -> String {
    let (ranking, word) = match parse(line.as_bytes()) {
        Some(parsed) => parsed,
        None => return "bad line".to_string(),
    };
    match judge(card, &ranking, &word, 25_600, tableau) {
        Ok(verdict) => verdict.to_string(),
        Err(number) => format!("refused {number}"),
    }
}

/// The whole call: refusals 1 to 9, then 19, 20, 21, each for all rows before the next.
pub fn judge(card: &[u8], ranking: &[u8], word: &[u8], work: usize, tableau: &[u8]) -> Result<Verdict, Refusal> {
    let card = checked(card, ranking, word, work)?;
    let tableau = read_tableau(tableau, card.machines.len())?;
    let profiles: Vec<Profile> =
        tableau.rows.iter().map(|row| row_profile(&card, word, row)).collect::<Result<_, _>>()?;
    if tableau.rows.iter().zip(&profiles).any(|(row, profile)| row.counts != *profile) {
        return Err(21);
    }
    let best = best(&card, ranking, word).expect("the rows are candidates");
    let best = profile(&card.machines, &best).expect("the best is complete");
    let wins: Vec<bool> = profiles.iter().map(|profile| harmony(ranking, &best, profile) != Ordering::Less).collect();
    Ok(verdict(tableau.claimed, &wins))
}
