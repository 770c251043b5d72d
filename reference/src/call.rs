//! A call with its whole input, what comes back from it, and what answers calls: this implementation or another.

use crate::candidate::{evaluate, Evaluation};
use crate::card::{pack, read_part};
use crate::join::join;
use crate::live::{self, Row, Step, Table};
use crate::optimizer::{optimize_by, Method};
use crate::ranking::{compare, condition, find_ranking};
use crate::sets::optimize_sets;
use crate::tableau::{judge, Verdict};
use crate::weights::optimize_weights;
use crate::{Profile, Refusal};
use std::cmp::Ordering;

/// One of the public calls with all that it is lent, as include/pastaspur.h has them; `Live` is a list of calls from an empty
/// table, each given the row count that the last accepted one answered.
#[derive(Clone, Debug, PartialEq, Eq, Hash)]
pub enum Call {
    Optimize { method: Method, card: Vec<u8>, ranking: Vec<u8>, word: Vec<u8>, work: Vec<u16>, answer: Vec<u8> },
    Evaluate { card: Vec<u8>, candidate: Vec<u8> },
    ReadPart { card: Vec<u8>, machine: u8 },
    Pack { symbols: u8, lengths: Vec<u16>, parts: Vec<u8>, target: Vec<u8> },
    Compare { machines: u8, ranking: Vec<u8>, first: Profile, second: Profile },
    Condition { machines: u8, first: Profile, second: Profile },
    FindRanking { machines: u8, conditions: Vec<u8> },
    Judge { card: Vec<u8>, ranking: Vec<u8>, word: Vec<u8>, work: Vec<u16>, tableau: Vec<u8> },
    Rows { machines: u8, ranking: Vec<u8>, used: usize, rows: Vec<Row>, step: Step },
    OptimizeSets { method: Method, card: Vec<u8>, ranking: Vec<u8>, sets: Vec<u64>, work: Vec<u16>, answer: Vec<u8> },
    OptimizeWeights { card: Vec<u8>, weights: Vec<u32>, word: Vec<u8>, work: Vec<u64>, answer: Vec<u8> },
    Join { card: Vec<u8>, first: u8, second: u8, target: Vec<u8> },
    Live { machines: u8, ranking: Vec<u8>, rows: Vec<Row>, steps: Vec<Step> },
}

/// A call's kind, its name, and the refusals that it can answer. The number 11 is not used.
pub const KINDS: [(&str, &[u32]); 17] = [
    ("optimize", &[1, 2, 3, 4, 5, 6, 7, 8, 9, 10, 12]),
    ("evaluate", &[1, 2, 3, 4, 5, 6, 13, 14]),
    ("read part", &[1, 2, 3, 4, 5, 6, 17]),
    ("pack", &[1, 3, 4, 5, 6, 17, 18]),
    ("compare", &[1, 7]),
    ("condition", &[1]),
    ("find ranking", &[1, 15, 16]),
    ("judge", &[1, 2, 3, 4, 5, 6, 7, 8, 9, 19, 20, 21]),
    ("cull", &[1, 2, 3, 4, 5, 6, 7, 8, 9, 10, 12]),
    ("add row", &[1, 7, 23, 24]),
    ("remove row", &[1, 7, 23, 24]),
    ("leader", &[1, 7, 23]),
    ("optimize sets", &[1, 2, 3, 4, 5, 6, 7, 8, 9, 10, 12, 25]),
    ("cull sets", &[1, 2, 3, 4, 5, 6, 7, 8, 9, 10, 12, 25]),
    ("optimize weights", &[1, 2, 3, 4, 5, 6, 8, 9, 10, 12, 26]),
    ("join", &[1, 2, 3, 4, 5, 6, 18, 27, 28]),
    ("live tableau", &[]),
];

impl Call {
    /// The place of its kind in `KINDS`.
    pub fn kind(&self) -> usize {
        match self {
            Call::Optimize { method: Method::Ranked, .. } => 0,
            Call::Evaluate { .. } => 1,
            Call::ReadPart { .. } => 2,
            Call::Pack { .. } => 3,
            Call::Compare { .. } => 4,
            Call::Condition { .. } => 5,
            Call::FindRanking { .. } => 6,
            Call::Judge { .. } => 7,
            Call::Optimize { method: Method::Cull, .. } => 8,
            Call::Rows { step: Step::Add(_), .. } => 9,
            Call::Rows { step: Step::Remove(_), .. } => 10,
            Call::Rows { step: Step::Leader, .. } => 11,
            Call::OptimizeSets { method: Method::Ranked, .. } => 12,
            Call::OptimizeSets { method: Method::Cull, .. } => 13,
            Call::OptimizeWeights { .. } => 14,
            Call::Join { .. } => 15,
            Call::Live { .. } => 16,
        }
    }

    /// The same call of the other engine, if there is one.
    pub fn twin(&self) -> Option<Call> {
        let mut twin = self.clone();
        let method = match &mut twin {
            Call::Optimize { method, .. } | Call::OptimizeSets { method, .. } => method,
            _ => return None,
        };
        *method = match method {
            Method::Ranked => Method::Cull,
            Method::Cull => Method::Ranked,
        };
        Some(twin)
    }

    /// The card that it is lent, if any.
    pub fn card(&self) -> Option<&[u8]> {
        match self {
            Call::Optimize { card, .. }
            | Call::OptimizeSets { card, .. }
            | Call::OptimizeWeights { card, .. }
            | Call::Join { card, .. }
            | Call::Evaluate { card, .. }
            | Call::ReadPart { card, .. }
            | Call::Judge { card, .. } => Some(card),
            _ => None,
        }
    }

    pub fn name(&self) -> &'static str {
        KINDS[self.kind()].0
    }
}

/// What a call leaves.
#[derive(Clone, Debug, PartialEq, Eq)]
pub struct Outcome {
    /// The refusal's number, 0 where the call is accepted.
    pub number: u32,
    /// The numbers of the result in the order of include/pastaspur.h.
    pub result: Vec<usize>,
    /// The answer or target slice at exit, or the bytes of the list of rows, whole; empty for the other calls.
    pub slice: Vec<u8>,
    /// Whether the work slice holds what it held before.
    pub work_kept: bool,
    /// What was written and may not be: inputs, and memory around whatever was lent.
    pub trespasses: Vec<String>,
}

/// Whatever answers calls.
pub trait Engine {
    fn answer(&self, call: &Call) -> Outcome;
}

impl<F: Fn(&Call) -> Outcome> Engine for F {
    fn answer(&self, call: &Call) -> Outcome {
        self(call)
    }
}

/// An outcome from a number and result, the result of that many numbers being all 0 on a refusal.
fn outcome(answer: Result<Vec<usize>, Refusal>, numbers: usize, slice: Vec<u8>) -> Outcome {
    let (number, result) = match answer {
        Ok(result) => (0, result),
        Err(number) => (number as u32, vec![0; numbers]),
    };
    Outcome { number, result, slice, work_kept: true, trespasses: vec![] }
}

fn evaluation(found: Evaluation) -> Vec<usize> {
    let counts = found.profile.iter().map(|&count| count as usize);
    counts.chain([found.pairs, found.word_length]).collect()
}

fn numbers(bytes: impl IntoIterator<Item = u8>) -> Vec<usize> {
    bytes.into_iter().map(usize::from).collect()
}

/// A list's records in bytes, as they lie in memory that has the lower byte first.
pub fn row_bytes(rows: &[Row]) -> Vec<u8> {
    rows.iter().flat_map(|row| [row.id].into_iter().chain(row.counts)).flat_map(u16::to_le_bytes).collect()
}

/// Whether there is a leader, its id and its counts.
fn leader(found: Option<Row>) -> Vec<usize> {
    let row = match found {
        Some(row) => row,
        None => return vec![0; 8],
    };
    [1, row.id as usize].into_iter().chain(row.counts.map(usize::from)).collect()
}

/// A list of calls from an empty table, each worked out afresh from those before it: every number and result, and at the end
/// the rows that are there, zeros in the records that were freed, and what was in the others.
fn afresh(ranking: &[u8], list: &[Row], steps: &[Step]) -> Outcome {
    let mut table = Table { ranking, room: list.len(), history: vec![] };
    let (mut result, mut most) = (vec![], 0);
    for &step in steps {
        let number = table.take(step);
        let count = table.rows().len();
        most = most.max(count);
        result.push(number as usize);
        match step {
            Step::Leader => result.extend(leader(table.leader())),
            _ => result.push(if number == 0 { count } else { 0 }),
        }
    }
    let mut at_exit = table.rows();
    at_exit.resize(most, Row::default());
    at_exit.extend(&list[most..]);
    outcome(Ok(result), 0, row_bytes(&at_exit))
}

/// The answer of this implementation.
pub fn reference(call: &Call) -> Outcome {
    match call {
        Call::Optimize { method, card, ranking, word, work, answer } => {
            let mut slice = answer.clone();
            let found = optimize_by(*method, card, ranking, word, work.len(), &mut slice);
            outcome(found.map(evaluation), 8, slice)
        }
        Call::OptimizeSets { method, card, ranking, sets, work, answer } => {
            let mut slice = answer.clone();
            let found = optimize_sets(*method, card, ranking, sets, work.len(), &mut slice);
            outcome(found.map(evaluation), 8, slice)
        }
        Call::OptimizeWeights { card, weights, word, work, answer } => {
            let mut slice = answer.clone();
            let found = optimize_weights(card, weights, word, work.len(), &mut slice);
            let numbers = |(found, sum)| [evaluation(found), vec![sum as usize]].concat();
            outcome(found.map(numbers), 9, slice)
        }
        Call::Join { card, first, second, target } => {
            let mut slice = target.clone();
            let found = join(card, *first, *second, &mut slice);
            outcome(found.map(|length| vec![length]), 1, slice)
        }
        Call::Evaluate { card, candidate } => outcome(evaluate(card, candidate).map(evaluation), 8, vec![]),
        Call::ReadPart { card, machine } => {
            outcome(read_part(card, *machine).map(|(offset, length)| vec![offset, length]), 2, vec![])
        }
        Call::Pack { symbols, lengths, parts, target } => {
            let mut slice = target.clone();
            let found = pack(*symbols, lengths, parts, &mut slice);
            outcome(found.map(|length| vec![length]), 1, slice)
        }
        Call::Compare { machines, ranking, first, second } => {
            let decision = |(order, machine): (Ordering, Option<u8>)| {
                let order = match order {
                    Ordering::Less => 1,
                    Ordering::Equal => 2,
                    Ordering::Greater => 3,
                };
                vec![order, machine.map_or(0, usize::from)]
            };
            outcome(compare(*machines, ranking, first, second).map(decision), 2, vec![])
        }
        Call::Condition { machines, first, second } => {
            outcome(condition(*machines, first, second).map(|(fewer, more)| numbers([fewer, more])), 2, vec![])
        }
        Call::FindRanking { machines, conditions } => {
            outcome(find_ranking(*machines, conditions).map(numbers), 6, vec![])
        }
        Call::Judge { card, ranking, word, work, tableau } => {
            let said = |verdict| match verdict {
                Verdict::Right => numbers([1, 0]),
                Verdict::AnotherRow(row) => numbers([2, row]),
                Verdict::NotInTheTable => numbers([3, 0]),
            };
            outcome(judge(card, ranking, word, work.len(), tableau).map(said), 2, vec![])
        }
        Call::Rows { machines, ranking, used, rows, step } => {
            let mut list = rows.clone();
            let count = |count: usize| vec![count];
            let found = match *step {
                Step::Add(row) => live::add(*machines, ranking, *used, &mut list, row).map(count),
                Step::Remove(id) => live::remove(*machines, ranking, *used, &mut list, id).map(count),
                Step::Leader => live::leader(*machines, ranking, *used, &list).map(leader),
            };
            outcome(found, step.numbers(), row_bytes(&list))
        }
        Call::Live { machines, ranking, rows, steps } => match live::leader(*machines, ranking, 0, &[]) {
            Ok(_) => afresh(ranking, rows, steps),
            Err(number) => {
                let refused = |step: &Step| [vec![number as usize], vec![0; step.numbers()]].concat();
                let result = steps.iter().flat_map(refused).collect();
                outcome(Ok(result), 0, row_bytes(rows))
            }
        },
    }
}
