//! A call as a line of text with the answer of this implementation, as tests/coverage keeps and plays them.
//! The line is `NAME FIELD .. = NUMBER RESULT SLICE`.
//!
//! The name and the fields are those of include/pastaspur.h, in its order. A slice of inputs is its bytes in hexadecimal, the
//! lower byte of a number first, `-` where it is empty. Of a work, answer or target slice there is the length alone. The slice
//! of the answer is what fills the front of the answer or the target, or the list of rows whole.

use crate::call::{reference, row_bytes, Call, Outcome};
use crate::live::{Row, Step};
use crate::optimizer::Method;
use crate::Profile;

fn hexadecimal(bytes: impl IntoIterator<Item = u8>) -> String {
    let text: String = bytes.into_iter().map(|byte| format!("{byte:02x}")).collect();
    match text.is_empty() {
        true => "-".to_string(),
        false => text,
    }
}

fn shorts(list: &[u16]) -> String {
    hexadecimal(list.iter().flat_map(|number| number.to_le_bytes()))
}

fn bytes(list: &[u8]) -> String {
    hexadecimal(list.iter().copied())
}

/// A call without its answer.
fn question(call: &Call) -> String {
    let fields: Vec<String> = match call {
        Call::Optimize { card, ranking, word, work, answer, .. } => {
            vec![bytes(card), bytes(ranking), bytes(word), work.len().to_string(), answer.len().to_string()]
        }
        Call::OptimizeSets { card, ranking, sets, work, answer, .. } => {
            let sets = hexadecimal(sets.iter().flat_map(|set| set.to_le_bytes()));
            vec![bytes(card), bytes(ranking), sets, work.len().to_string(), answer.len().to_string()]
        }
        Call::OptimizeWeights { card, weights, word, work, answer } => {
            let weights = hexadecimal(weights.iter().flat_map(|weight| weight.to_le_bytes()));
            vec![bytes(card), weights, bytes(word), work.len().to_string(), answer.len().to_string()]
        }
        Call::Judge { card, ranking, word, work, tableau } => {
            vec![bytes(card), bytes(ranking), bytes(word), work.len().to_string(), bytes(tableau)]
        }
        Call::Evaluate { card, candidate } => vec![bytes(card), bytes(candidate)],
        Call::ReadPart { card, machine } => vec![bytes(card), machine.to_string()],
        Call::Pack { symbols, lengths, parts, target } => {
            vec![symbols.to_string(), shorts(lengths), bytes(parts), target.len().to_string()]
        }
        Call::Join { card, first, second, target } => {
            vec![bytes(card), first.to_string(), second.to_string(), target.len().to_string()]
        }
        Call::Compare { machines, ranking, first, second } => {
            vec![machines.to_string(), bytes(ranking), shorts(first), shorts(second)]
        }
        Call::Condition { machines, first, second } => vec![machines.to_string(), shorts(first), shorts(second)],
        Call::FindRanking { machines, conditions } => vec![machines.to_string(), bytes(conditions)],
        Call::Rows { machines, ranking, used, rows, step } => {
            let mut fields = vec![machines.to_string(), bytes(ranking), used.to_string(), bytes(&row_bytes(rows))];
            match step {
                Step::Add(row) => fields.push(bytes(&row_bytes(&[*row]))),
                Step::Remove(id) => fields.push(id.to_string()),
                Step::Leader => (),
            }
            fields
        }
        Call::Live { .. } => unreachable!("its steps are written one by one"),
    };
    format!("{} {}", call.name().replace(' ', "_"), fields.join(" "))
}

/// How many bytes each number of a result has in memory.
fn width(call: &Call) -> usize {
    match call {
        Call::OptimizeWeights { .. } | Call::ReadPart { .. } | Call::Pack { .. } | Call::Join { .. } => 8,
        Call::Rows { step: Step::Add(_) | Step::Remove(_), .. } => 8,
        Call::Optimize { .. } | Call::OptimizeSets { .. } | Call::Evaluate { .. } | Call::Rows { .. } => 2,
        _ => 1,
    }
}

/// What is written into the slice that a call may write.
fn written_part<'a>(call: &Call, outcome: &'a Outcome) -> &'a [u8] {
    let accepted = outcome.number == 0;
    match call {
        Call::Optimize { .. } | Call::OptimizeSets { .. } | Call::OptimizeWeights { .. } if accepted => {
            &outcome.slice[..2 * outcome.result[6]]
        }
        Call::Pack { .. } | Call::Join { .. } if accepted => &outcome.slice[..outcome.result[0]],
        Call::Rows { .. } => &outcome.slice,
        _ => &[],
    }
}

/// The calls that a call comes to: itself, or the steps of a live tableau.
pub fn single_calls(call: &Call) -> Vec<Call> {
    let (machines, ranking, rows, steps) = match call {
        Call::Live { machines, ranking, rows, steps } => (machines, ranking, rows, steps),
        _ => return vec![call.clone()],
    };
    let (mut used, mut rows, mut calls) = (0, rows.clone(), Vec::new());
    for &step in steps {
        let call = Call::Rows { machines: *machines, ranking: ranking.clone(), used, rows: rows.clone(), step };
        let outcome = reference(&call);
        rows = rows_of(&outcome.slice);
        if outcome.number == 0 && step != Step::Leader {
            used = outcome.result[0];
        }
        calls.push(call);
    }
    calls
}

/// A call with its answer.
pub fn line(call: &Call) -> String {
    let outcome = reference(call);
    let result = outcome.result.iter().flat_map(|number| number.to_le_bytes()[..width(call)].to_vec());
    format!("{} = {} {} {}", question(call), outcome.number, hexadecimal(result), bytes(written_part(call, &outcome)))
}

fn rows_of(bytes: &[u8]) -> Vec<Row> {
    let row = |numbers: &[u16]| Row { id: numbers[0], counts: std::array::from_fn(|place| numbers[place + 1]) };
    shorts_of(bytes).chunks(7).map(row).collect()
}

fn shorts_of(bytes: &[u8]) -> Vec<u16> {
    bytes.chunks(2).map(|pair| u16::from_le_bytes([pair[0], pair[1]])).collect()
}

/// The fields of a line, taken one after another.
struct Fields<'a>(std::str::SplitWhitespace<'a>);

impl Fields<'_> {
    fn number(&mut self) -> usize {
        self.0.next().and_then(|word| word.parse().ok()).expect("a number")
    }

    fn byte(&mut self) -> u8 {
        self.number() as u8
    }

    fn bytes(&mut self) -> Vec<u8> {
        match self.0.next().expect("a slice") {
            "-" => vec![],
            text => {
                let place = (0..text.len()).step_by(2);
                place.map(|place| u8::from_str_radix(&text[place..place + 2], 16).expect("hexadecimal")).collect()
            }
        }
    }

    fn profile(&mut self) -> Profile {
        let counts = shorts_of(&self.bytes());
        std::array::from_fn(|place| counts[place])
    }
}

/// The call of a line, whose answer, if there is one, is not looked at.
pub fn read(line: &str) -> Call {
    let mut fields = Fields(line.split_whitespace());
    // where the memory lies does not matter here
    let name = fields.0.next().expect("a name").trim_end_matches('+');
    let method = match name {
        "cull" | "cull_sets" => Method::Cull,
        _ => Method::Ranked,
    };
    match name {
        "optimize" | "cull" => Call::Optimize {
            method,
            card: fields.bytes(),
            ranking: fields.bytes(),
            word: fields.bytes(),
            work: vec![0; fields.number()],
            answer: vec![0; fields.number()],
        },
        "optimize_sets" | "cull_sets" => {
            let (card, ranking, sets) = (fields.bytes(), fields.bytes(), fields.bytes());
            let set = |bytes: &[u8]| u64::from_le_bytes(std::array::from_fn(|place| bytes[place]));
            let sets = sets.chunks(8).map(set).collect();
            let (work, answer) = (vec![0; fields.number()], vec![0; fields.number()]);
            Call::OptimizeSets { method, card, ranking, sets, work, answer }
        }
        "optimize_weights" => {
            let (card, weights, word) = (fields.bytes(), fields.bytes(), fields.bytes());
            let weight = |bytes: &[u8]| u32::from_le_bytes(std::array::from_fn(|place| bytes[place]));
            let weights = weights.chunks(4).map(weight).collect();
            let (work, answer) = (vec![0; fields.number()], vec![0; fields.number()]);
            Call::OptimizeWeights { card, weights, word, work, answer }
        }
        "judge" => {
            let (card, ranking, word) = (fields.bytes(), fields.bytes(), fields.bytes());
            Call::Judge { card, ranking, word, work: vec![0; fields.number()], tableau: fields.bytes() }
        }
        "evaluate" => Call::Evaluate { card: fields.bytes(), candidate: fields.bytes() },
        "read_part" => Call::ReadPart { card: fields.bytes(), machine: fields.byte() },
        "pack" => {
            let (symbols, lengths, parts) = (fields.byte(), shorts_of(&fields.bytes()), fields.bytes());
            Call::Pack { symbols, lengths, parts, target: vec![0; fields.number()] }
        }
        "join" => {
            let (card, first, second) = (fields.bytes(), fields.byte(), fields.byte());
            Call::Join { card, first, second, target: vec![0; fields.number()] }
        }
        "compare" => {
            let (machines, ranking) = (fields.byte(), fields.bytes());
            Call::Compare { machines, ranking, first: fields.profile(), second: fields.profile() }
        }
        "condition" => Call::Condition { machines: fields.byte(), first: fields.profile(), second: fields.profile() },
        "find_ranking" => Call::FindRanking { machines: fields.byte(), conditions: fields.bytes() },
        "add_row" | "remove_row" | "leader" => {
            let (machines, ranking, used) = (fields.byte(), fields.bytes(), fields.number());
            let rows = rows_of(&fields.bytes());
            let step = match name {
                "add_row" => Step::Add(rows_of(&fields.bytes())[0]),
                "remove_row" => Step::Remove(fields.number() as u16),
                _ => Step::Leader,
            };
            Call::Rows { machines, ranking, used, rows, step }
        }
        _ => panic!("no call {name}"),
    }
}
