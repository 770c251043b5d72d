//! Live tableaux by chance: single calls on lists of any content, and lists of calls from an empty table.

use super::calls::any_count;
use super::cards::any_ranking;
use super::damage::damage_a_ranking;
use crate::call::Call;
use crate::live::{Row, Step};
use crate::random::Random;

/// A row with one of a few ids, and counts that are often alike.
fn any_row(random: &mut Random, ids: usize, most: usize) -> Row {
    let id = match random.below(20) {
        0 => random.one_of(&[0, 255, 256, 65_535]),
        _ => random.below(ids) as u16,
    };
    Row { id, counts: std::array::from_fn(|_| random.between(0, most) as u16) }
}

fn any_rows(random: &mut Random, length: usize, ids: usize) -> Vec<Row> {
    let most = random.one_of(&[0, 1, 2, 65_535]);
    (0..length).map(|_| any_row(random, ids, most)).collect()
}

/// A list's length: small ones, those around the limit, far more.
fn any_length(random: &mut Random) -> usize {
    match random.below(10) {
        0 => random.between(31, 34),
        1 => 32,
        2 => random.between(33, 70),
        3 => random.below(33),
        _ => random.below(7),
    }
}

/// A row count: one that the list has, its limit's neighbours, far more.
fn any_used(random: &mut Random, length: usize) -> usize {
    match random.below(16) {
        0 => length + 1,
        1 => length,
        2 => length.saturating_sub(1),
        3 => random.between(31, 34),
        4 => random.one_of(&[256, 65_536, usize::MAX]),
        5 => 0,
        _ => random.below(length.min(32) + 1),
    }
}

/// One call that adds, removes or asks for the leader.
pub fn row_call(random: &mut Random) -> Call {
    let machines = any_count(random);
    let mut ranking = any_ranking(random, machines.min(8) as usize);
    if random.percent(8) {
        damage_a_ranking(random, &mut ranking);
    }
    let length = any_length(random);
    // few ids make doubles, many leave an id to be added
    let ids = random.one_of(&[2, 40, 1_000]);
    let rows = any_rows(random, length, ids);
    let used = any_used(random, length);
    let mut id = random.below(ids) as u16;
    if !rows.is_empty() && random.percent(40) {
        id = rows[random.below(rows.len())].id;
    }
    let step = match random.below(3) {
        0 => Step::Add(Row { id, ..any_row(random, ids, 3) }),
        1 => Step::Remove(id),
        _ => Step::Leader,
    };
    Call::Rows { machines, ranking, used, rows, step }
}

/// A list of calls from an empty table, in a list with any content.
pub fn live_table(random: &mut Random) -> Call {
    let machines = random.between(1, 6) as u8;
    let ranking = any_ranking(random, machines as usize);
    let length = any_length(random);
    let rows = any_rows(random, length, 5);
    let ids = random.one_of(&[3, 10, 60]);
    let most = random.one_of(&[0, 1, 3, 65_535]);
    let adding = random.one_of(&[40, 60, 80]);
    let mut steps = Vec::new();
    for _ in 0..random.below(60) {
        steps.push(match random.below(100) {
            0..=19 => Step::Leader,
            share if share - 20 < adding => Step::Add(any_row(random, ids, most)),
            _ => Step::Remove(any_row(random, ids, 0).id),
        });
    }
    Call::Live { machines, ranking, rows, steps }
}
