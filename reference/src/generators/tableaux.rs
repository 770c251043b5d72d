//! Tableaux by chance: rows with candidates for a word, and faults in them.

use super::candidates::{bytes_of, damage_a_candidate, walk};
use super::cards::{any_ranking, any_word};
use super::damage::change_a_byte;
use crate::candidate::{profile, read_candidate, Pair};
use crate::card::Card;
use crate::optimizer::best;
use crate::random::Random;
use crate::tableau::{lay_out, Row, Tableau};

/// A complete candidate for a word, if it has one: the best of the card with other marks.
fn any_candidate(random: &mut Random, card: &Card, word: &[u8]) -> Option<Vec<Pair>> {
    let mut other = card.clone();
    for arc in other.machines.iter_mut().flat_map(|machine| &mut machine.arcs) {
        arc.marks = random.one_of(&[0, 0, 1, 15]);
    }
    best(&other, &any_ranking(random, card.machines.len()), word)
}

/// A row with a candidate and its counts, zeros where it is not complete.
fn row(card: &Card, candidate: Vec<u8>) -> Row {
    let pairs = read_candidate(card.symbols, &candidate).ok();
    let counts = pairs.and_then(|pairs| profile(&card.machines, &pairs)).unwrap_or_default();
    Row { counts, candidate }
}

/// Rows for a word, some of them alike: the best of it, bests under other rankings, other candidates.
fn any_rows(random: &mut Random, card: &Card, ranking: &[u8], word: &[u8]) -> Vec<Row> {
    let mut candidates = Vec::new();
    for _ in 0..random.between(1, 4) {
        let found = match random.below(4) {
            0 | 1 => best(card, ranking, word),
            2 => best(card, &any_ranking(random, card.machines.len()), word),
            _ => any_candidate(random, card, word),
        };
        let pairs = word.len() + random.below(3);
        candidates.push(found.map_or_else(|| walk(random, card, pairs), bytes_of));
    }
    let count = match random.below(40) {
        0..=2 => 32,
        3 => 33,
        4 => 31,
        5..=9 => random.between(7, 31),
        _ => random.between(1, 6),
    };
    (0..count).map(|_| row(card, candidates[random.below(candidates.len())].clone())).collect()
}

/// A fault in one row: an unused count (19), its candidate or the word that it spells (20), a count (21).
fn damage_a_row(random: &mut Random, card: &Card, tableau: &mut Tableau) {
    let machines = card.machines.len();
    let place = random.below(tableau.rows.len());
    let damaged = &mut tableau.rows[place];
    match random.below(10) {
        0 if machines < 6 => damaged.counts[random.between(machines, 5)] = random.between(1, 65_535) as u16,
        1..=4 => damage_a_candidate(random, &mut damaged.candidate, card.symbols),
        5 => {
            let word = any_word(random, card.symbols);
            if let Some(candidate) = any_candidate(random, card, &word) {
                *damaged = row(card, bytes_of(candidate));
            }
        }
        6 if random.percent(4) => damaged.candidate = [0, 1].repeat(random.between(3_198, 3_201)),
        _ => {
            let machine = random.below(machines);
            let count = &mut damaged.counts[machine];
            *count = random.one_of(&[count.wrapping_add(1), count.wrapping_sub(1), count.wrapping_add(256), 0, 65_535]);
        }
    }
}

/// Bytes that are not laid out as they should: refusal 19, for most of them.
fn damage_the_layout(random: &mut Random, tableau: &mut Vec<u8>) {
    let rows = tableau[0] as usize;
    let table = 2 + 4 * rows;
    match random.below(10) {
        0 => tableau.truncate(random.below(table + 13)),
        1 => tableau.truncate(random.below(tableau.len())),
        2 => {
            tableau.pop();
        }
        3 => tableau.extend(random.one_of(&[&[0][..], &[1, 2]])),
        4 => tableau[0] = random.one_of(&[0, 33, tableau[0].wrapping_add(1), tableau[0].wrapping_sub(1), 255]),
        5 | 6 => tableau[1] = random.one_of(&[tableau[0], tableau[0].wrapping_add(1), 255]),
        7 => change_a_byte(random, &mut tableau[2..table]),
        8 => {
            // two places of the table change places
            let (a, b) = (random.below(rows), random.below(rows));
            for byte in 0..4 {
                tableau.swap(2 + 4 * a + byte, 2 + 4 * b + byte);
            }
        }
        _ => {
            // a byte between the table and the first row, and all offsets moved on
            tableau.insert(table, 0);
            for row in 0..rows {
                tableau[2 + 4 * row] = tableau[2 + 4 * row].wrapping_add(1);
            }
        }
    }
}

/// Rows of which one is a few bytes short of its counts.
fn with_a_short_row(random: &mut Random, tableau: &Tableau) -> Vec<u8> {
    let mut rows: Vec<Vec<u8>> = tableau.rows.iter().map(Row::bytes).collect();
    let place = random.below(rows.len());
    rows[place].truncate(random.between(9, 12));
    lay_out(tableau.claimed, &rows)
}

/// A tableau whose second offset is right only for numbers of 16 bits, which wrap.
fn wrapped_tableau() -> Vec<u8> {
    [&[2, 0, 10, 0, 255, 255, 9, 0, 12, 0][..], &[0; 65_535]].concat()
}

/// The bytes of a tableau for a card, a ranking and a word, with faults now and then.
pub fn any_tableau(random: &mut Random, card: &Card, ranking: &[u8], word: &[u8]) -> Vec<u8> {
    if random.below(2_000) == 0 {
        return wrapped_tableau();
    }
    if random.percent(1) {
        let length = random.below(30);
        return random.bytes(length);
    }
    let rows = any_rows(random, card, ranking, word);
    let mut tableau = Tableau { claimed: random.below(rows.len()) as u8, rows };
    let faults = random.one_of(&[0, 0, 0, 0, 0, 1, 1, 2, 3]);
    for _ in 0..faults {
        damage_a_row(random, card, &mut tableau);
    }
    if random.percent(2) {
        return with_a_short_row(random, &tableau);
    }
    let mut bytes = tableau.bytes();
    if random.percent(12) {
        damage_the_layout(random, &mut bytes);
    }
    bytes
}
