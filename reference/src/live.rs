//! The live tableau: rows proposed and withdrawn while the board shows the leader. Each call is worked out afresh on a copy
//! of the rows; `Table` has the same without any list, from the ids added and not since removed.

use crate::ranking::{harmony, is_ranking};
use crate::{Profile, Refusal};
use std::cmp::Ordering;

/// The most rows of a table.
const MOST: usize = 32;

#[derive(Clone, Copy, Debug, Default, PartialEq, Eq, Hash)]
pub struct Row {
    pub id: u16,
    pub counts: Profile,
}

/// The rows of a list: refusals 1, 7 and 23, where `more` is how many rows are about to come.
fn rows<'a>(count: u8, ranking: &[u8], used: usize, list: &'a [Row], more: usize) -> Result<&'a [Row], Refusal> {
    if !(1..=6).contains(&count) {
        return Err(1);
    }
    if !is_ranking(count as usize, ranking) {
        return Err(7);
    }
    let room = list.len().min(MOST);
    if room < more || used > room - more {
        return Err(23);
    }
    Ok(&list[..used])
}

/// The list with these rows in front and the freed records at zeros.
fn write(list: &mut [Row], rows: &[Row], freed: usize) {
    list[..rows.len()].copy_from_slice(rows);
    list[rows.len()..rows.len() + freed].fill(Row::default());
}

/// Adding a row: the new row count.
pub fn add(count: u8, ranking: &[u8], used: usize, list: &mut [Row], row: Row) -> Result<usize, Refusal> {
    let mut rows = rows(count, ranking, used, list, 1)?.to_vec();
    if rows.iter().any(|other| other.id == row.id) {
        return Err(24);
    }
    rows.push(row);
    write(list, &rows, 0);
    Ok(rows.len())
}

/// Taking out the first row with an id: the new row count.
pub fn remove(count: u8, ranking: &[u8], used: usize, list: &mut [Row], id: u16) -> Result<usize, Refusal> {
    let mut rows = rows(count, ranking, used, list, 0)?.to_vec();
    let place = rows.iter().position(|row| row.id == id).ok_or(24)?;
    rows.remove(place);
    write(list, &rows, 1);
    Ok(rows.len())
}

/// The best row, the earliest arrival among equals.
fn best(ranking: &[u8], rows: &[Row]) -> Option<Row> {
    let beaten = |row: &Row| rows.iter().any(|other| harmony(ranking, &other.counts, &row.counts) == Ordering::Less);
    rows.iter().find(|row| !beaten(row)).copied()
}

/// The leader, if there is one.
pub fn leader(count: u8, ranking: &[u8], used: usize, list: &[Row]) -> Result<Option<Row>, Refusal> {
    Ok(best(ranking, rows(count, ranking, used, list, 0)?))
}

/// What is asked of a live tableau.
#[derive(Clone, Copy, Debug, PartialEq, Eq, Hash)]
pub enum Step {
    Add(Row),
    Remove(u16),
    Leader,
}

impl Step {
    /// How many numbers are answered: the row count; or whether there is a leader, its id and its counts.
    pub fn numbers(&self) -> usize {
        if *self == Step::Leader {
            8
        } else {
            1
        }
    }
}

/// A table that started empty, by its history alone: what was added and removed, refused calls left out.
pub struct Table<'a> {
    pub ranking: &'a [u8],
    /// How many records its list has.
    pub room: usize,
    pub history: Vec<Step>,
}

impl Table<'_> {
    /// The rows added and not since removed, in order of arrival.
    pub fn rows(&self) -> Vec<Row> {
        let stays = |(place, step): (usize, &Step)| match *step {
            Step::Add(row) if !self.history[place..].contains(&Step::Remove(row.id)) => Some(row),
            _ => None,
        };
        self.history.iter().enumerate().filter_map(stays).collect()
    }

    pub fn leader(&self) -> Option<Row> {
        best(self.ranking, &self.rows())
    }

    /// Takes a step in: the number, 0 where it is accepted.
    pub fn take(&mut self, step: Step) -> u32 {
        let rows = self.rows();
        let present = |id: u16| rows.iter().any(|row| row.id == id);
        let number = match step {
            Step::Add(_) if rows.len() >= self.room.min(MOST) => 23,
            Step::Add(row) if present(row.id) => 24,
            Step::Remove(id) if !present(id) => 24,
            _ => 0,
        };
        if number == 0 && step != Step::Leader {
            self.history.push(step);
        }
        number
    }
}
