//! A corpus of calls for a test program of the gate: a file with the calls, and the lines that have to be printed.
//!
//! The file is one call after another: a byte for its kind, from 1 in the order of `KINDS`, and its fields. Numbers have 16
//! bits, the lower byte first. A list is its length and its elements. Of the work slice only the length is given: the test
//! program fills it with 7s. Of the answer and target slices it is their length and the byte that they are filled with. A
//! set of symbols has 64 bits, a weight 32.
//!
//! The live tableau's calls are not in it: the test program, itself proved safe, would have to go through a slice of rows
//! by hand. The test program `test_live` makes them, and so does the comparison.

use crate::call::{reference, Call, Outcome, KINDS};
use crate::card::{read_card, Card};
use crate::generators::{two_machines, Generator};
use crate::optimizer::Method;
use crate::random::Random;
use crate::samples::{self, arc, machine, set};
use crate::weights::HEAVIEST;
use std::collections::BTreeMap;

pub struct Corpus {
    pub cases: Vec<u8>,
    pub lines: String,
    pub count: usize,
}

const SEED: u64 = 1998;

/// The most bytes of a file, and of the calls in it that take more than `LARGE`.
const MOST: usize = 400_000;
const MOST_OF_LARGE: usize = 40_000;
const LARGE: usize = 700;

/// The kinds that are not in it.
const LEFT_OUT: [&str; 4] = ["add row", "remove row", "leader", "live tableau"];

/// How many calls of a kind that answer a number are in it.
fn wanted(kind: usize, number: u32) -> usize {
    match (KINDS[kind].0, number) {
        ("optimize", 0) => 60,
        ("evaluate", 0) => 40,
        ("compare" | "find ranking", 0) => 24,
        ("judge", 0) => 40,
        ("judge", 19..=21) => 12,
        ("judge", _) => 3,
        ("cull" | "optimize sets" | "cull sets" | "optimize weights" | "join", 0) => 30,
        ("optimize sets" | "cull sets", 25) => 12,
        ("optimize weights", 26) => 12,
        ("join", 18 | 27 | 28) => 10,
        ("cull" | "optimize sets" | "cull sets" | "optimize weights" | "join", _) => 3,
        ("optimize", 12) => 20,
        (_, 0 | 13..=16) => 14,
        ("optimize", _) => 8,
        _ => 5,
    }
}

/// Whether the test program makes such calls, and its memory holds this one.
fn fits(call: &Call) -> bool {
    match call {
        Call::Optimize { card, ranking, word, work, answer, .. } => {
            card.len() <= 32_000
                && ranking.len() <= 255
                && word.len() <= 255
                && work.len() <= 25_600
                && answer.len() <= 6_398
        }
        Call::Evaluate { card, candidate } => card.len() <= 32_000 && candidate.len() <= 6_402,
        Call::ReadPart { card, .. } => card.len() <= 32_000,
        Call::Pack { lengths, parts, target, .. } => {
            lengths.len() <= 7 && parts.len() <= 32_000 && target.len() <= 32_000
        }
        Call::Compare { ranking, .. } => ranking.len() <= 255,
        Call::Condition { .. } => true,
        Call::FindRanking { conditions, .. } => conditions.len() <= 255,
        Call::Judge { card, ranking, word, work, tableau } => {
            card.len() <= 32_000
                && ranking.len() <= 255
                && word.len() <= 255
                && work.len() <= 25_600
                && tableau.len() <= 32_000
        }
        Call::OptimizeSets { card, ranking, sets, work, answer, .. } => {
            card.len() <= 32_000
                && ranking.len() <= 255
                && sets.len() <= 32
                && work.len() <= 25_600
                && answer.len() <= 6_398
        }
        Call::OptimizeWeights { card, weights, word, work, answer } => {
            card.len() <= 32_000
                && weights.len() <= 8
                && word.len() <= 255
                && work.len() <= 6_401
                && answer.len() <= 6_398
        }
        Call::Join { card, target, .. } => card.len() <= 32_000 && target.len() <= 32_000,
        Call::Rows { .. } | Call::Live { .. } => false,
    }
}

/// The call with the slice that it writes filled with one byte.
fn filled(mut call: Call) -> Call {
    if let Call::Optimize { answer: slice, .. }
    | Call::OptimizeSets { answer: slice, .. }
    | Call::OptimizeWeights { answer: slice, .. }
    | Call::Join { target: slice, .. }
    | Call::Pack { target: slice, .. } = &mut call
    {
        let byte = slice.first().copied().unwrap_or(0);
        slice.fill(byte);
    }
    call
}

/// Writes fields.
#[derive(Default)]
struct Fields(Vec<u8>);

impl Fields {
    fn byte(&mut self, byte: u8) {
        self.0.push(byte);
    }

    fn number(&mut self, number: usize) {
        let number = u16::try_from(number).expect("a number of 16 bits");
        self.0.extend(number.to_le_bytes());
    }

    fn bytes(&mut self, bytes: &[u8]) {
        self.number(bytes.len());
        self.0.extend(bytes);
    }

    fn numbers(&mut self, numbers: &[u16]) {
        for &number in numbers {
            self.number(number as usize);
        }
    }

    /// A slice that is written: its length, and what it is filled with.
    fn slice(&mut self, slice: &[u8]) {
        self.number(slice.len());
        self.byte(slice.first().copied().unwrap_or(0));
    }
}

fn fields(call: &Call) -> Vec<u8> {
    let mut fields = Fields::default();
    fields.byte(call.kind() as u8 + 1);
    match call {
        Call::Optimize { card, ranking, word, work, answer, .. } => {
            fields.bytes(card);
            fields.bytes(ranking);
            fields.bytes(word);
            fields.number(work.len());
            fields.slice(answer);
        }
        Call::OptimizeSets { card, ranking, sets, work, answer, .. } => {
            fields.bytes(card);
            fields.bytes(ranking);
            fields.number(sets.len());
            sets.iter().for_each(|set| fields.0.extend(set.to_le_bytes()));
            fields.number(work.len());
            fields.slice(answer);
        }
        Call::OptimizeWeights { card, weights, word, work, answer } => {
            fields.bytes(card);
            fields.number(weights.len());
            weights.iter().for_each(|weight| fields.0.extend(weight.to_le_bytes()));
            fields.bytes(word);
            fields.number(work.len());
            fields.slice(answer);
        }
        Call::Join { card, first, second, target } => {
            fields.bytes(card);
            fields.byte(*first);
            fields.byte(*second);
            fields.slice(target);
        }
        Call::Evaluate { card, candidate } => {
            fields.bytes(card);
            fields.bytes(candidate);
        }
        Call::ReadPart { card, machine } => {
            fields.bytes(card);
            fields.byte(*machine);
        }
        Call::Pack { symbols, lengths, parts, target } => {
            fields.byte(*symbols);
            fields.number(lengths.len());
            fields.numbers(lengths);
            fields.bytes(parts);
            fields.slice(target);
        }
        Call::Compare { machines, ranking, first, second } => {
            fields.byte(*machines);
            fields.bytes(ranking);
            fields.numbers(first);
            fields.numbers(second);
        }
        Call::Condition { machines, first, second } => {
            fields.byte(*machines);
            fields.numbers(first);
            fields.numbers(second);
        }
        Call::FindRanking { machines, conditions } => {
            fields.byte(*machines);
            fields.bytes(conditions);
        }
        Call::Judge { card, ranking, word, work, tableau } => {
            fields.bytes(card);
            fields.bytes(ranking);
            fields.bytes(word);
            fields.number(work.len());
            fields.bytes(tableau);
        }
        Call::Rows { .. } | Call::Live { .. } => unreachable!("left out"),
    }
    fields.0
}

/// A whole slice in one number: its bytes as the digits of a number to base 257, modulo 1,000,000,007.
fn sum(slice: &[u8]) -> u64 {
    slice.iter().fold(0, |sum, &byte| (257 * sum + byte as u64) % 1_000_000_007)
}

fn joined(numbers: &[usize], between: &str) -> String {
    numbers.iter().map(usize::to_string).collect::<Vec<_>>().join(between)
}

/// How many numbers of the work slice still hold what they were filled with, where the call has to keep them: all that
/// were lent.
fn kept(call: &Call, number: u32) -> String {
    if !matches!(number, 1..=9 | 25 | 26) {
        return String::new();
    }
    match call {
        Call::Optimize { work, .. } | Call::OptimizeSets { work, .. } | Call::Judge { work, .. } => {
            format!(" {}", work.len())
        }
        Call::OptimizeWeights { work, .. } => format!(" {}", work.len()),
        _ => String::new(),
    }
}

/// What the test program prints for a call.
fn line(call: &Call, outcome: &Outcome) -> String {
    let Outcome { number, result, slice, .. } = outcome;
    let line = match call {
        Call::Optimize { .. } | Call::OptimizeSets { .. } | Call::OptimizeWeights { .. } => {
            let name = call.name();
            format!("{name} {number} {} {} {}", joined(&result[..6], ","), joined(&result[6..], " "), sum(slice))
        }
        Call::Evaluate { .. } => {
            format!("evaluate {number} {} {}", joined(&result[..6], ","), joined(&result[6..], " "))
        }
        Call::ReadPart { .. } => format!("part {number} {}", joined(result, " ")),
        Call::Pack { .. } | Call::Join { .. } => {
            format!("{} {number} {} {}", call.name(), joined(result, " "), sum(slice))
        }
        Call::Compare { .. } => format!("compare {number} {}", joined(result, " ")),
        Call::Condition { .. } => format!("condition {number} {}", joined(result, " ")),
        Call::FindRanking { .. } => format!("ranking {number} {}", joined(result, ",")),
        Call::Judge { .. } => format!("judge {number} {}", joined(result, " ")),
        Call::Rows { .. } | Call::Live { .. } => unreachable!("left out"),
    };
    line + &kept(call, *number)
}

/// The longest best candidate that there is, in slices that just hold it and that just do not, and its evaluation.
fn longest() -> Vec<Call> {
    let card = samples::chain();
    let call = |answer: usize| {
        let (card, work) = (card.clone(), vec![0; 25_600]);
        let (method, ranking, word) = (Method::Ranked, vec![1, 0], vec![3; 24]);
        Call::Optimize { method, card, ranking, word, work, answer: vec![170; answer] }
    };
    let candidate = reference(&call(6_398)).slice;
    let with_another = [&candidate[..], &[0, 1]].concat();
    let evaluate = |candidate| Call::Evaluate { card: card.clone(), candidate };
    let culled = call(6_398).twin().expect("a search");
    vec![call(6_398), call(6_397), culled, evaluate(candidate), evaluate(with_another)]
}

/// The empty word: on a card whose best for it has insertions alone, on one that has no candidate, and on card B, where it
/// is the candidate of no pairs.
fn empty_words() -> Vec<Call> {
    let inserting = samples::card(2, &[machine(&[false, true], vec![arc(0, 1, 3, set([0]), set([1, 2]))])]);
    let none = samples::card(2, &[machine(&[false], vec![arc(0, 0, 0, set([0, 1]), set([1, 2]))])]);
    let call = |card: &[u8], machines: u8, work: usize, answer: usize| Call::Optimize {
        method: Method::Ranked,
        card: card.to_vec(),
        ranking: (0..machines).collect(),
        word: vec![],
        work: vec![0; work],
        answer: vec![170; answer],
    };
    vec![
        call(&inserting, 1, 16, 2),
        call(&inserting, 1, 15, 2),
        call(&inserting, 1, 16, 1),
        call(&none, 1, 8, 2),
        call(&none, 1, 7, 2),
        call(&samples::card_b(), 3, 16, 0),
        call(&samples::card_b(), 3, 17, 3),
        call(&samples::card_b(), 3, 15, 0),
    ]
}

/// Weights: none, all alike, at the limit and above it, too few and too many, work and answer that just do and do not hold,
/// for card B; and the largest sum that there is.
fn weighings() -> Vec<Call> {
    let call = |card: Vec<u8>, weights: &[u32], word: &[u8], work: usize, answer: usize| {
        let (weights, word) = (weights.to_vec(), word.to_vec());
        Call::OptimizeWeights { card, weights, word, work: vec![0; work], answer: vec![170; answer] }
    };
    let lists: [&[u32]; 9] = [
        &[0, 0, 0],
        &[1, 1, 1],
        &[2, 1, 2],
        &[HEAVIEST; 3],
        &[HEAVIEST, HEAVIEST - 1, HEAVIEST],
        &[0, 0, HEAVIEST + 1],
        &[1, 1],
        &[1; 4],
        &[],
    ];
    let of_b = lists.iter().map(|weights| call(samples::card_b(), weights, &[2, 1], 12, 6));
    let around = [(11, 6), (12, 2), (12, 3), (12, 4)];
    let of_b =
        of_b.chain(around.iter().map(|&(work, answer)| call(samples::card_b(), &[3, 2, 1], &[2, 1], work, answer)));
    of_b.chain([call(samples::chain_ending(), &[HEAVIEST; 2], &[1; 24], 6_400, 6_398)]).collect()
}

/// Machines joined: card B with its deletion machine without marks, in either order, into targets that just do and do not hold,
/// and what 27 refuses; and joined machines of 32 states and 33, of 255 arcs and 256.
fn joins() -> Vec<Call> {
    let call = |card: &[u8], first: u8, second: u8, target: usize| {
        let (card, target) = (card.to_vec(), vec![170; target]);
        Call::Join { card, first, second, target }
    };
    let mut machines = read_card(&samples::card_b()).expect("card B").machines;
    machines[2].arcs.iter_mut().for_each(|arc| arc.marks = 0);
    let plain = samples::card(2, &machines);
    let length = reference(&call(&plain, 0, 2, 1_000)).result[0];
    let of_b = [(0, 2, 0_isize), (2, 0, 3), (0, 2, -1), (2, 2, 0), (0, 3, 0), (255, 1, 0), (0, 1, 0)];
    let of_b = of_b.map(|(first, second, more)| call(&plain, first, second, length.wrapping_add(more as usize)));
    let mut random = Random::new(SEED);
    let at_the_limits = [(4, 9, 8), (3, 7, 11), (1, 51, 5), (1, 64, 4)].map(|(states, arcs, others)| {
        let Card { symbols, machines, .. } = two_machines(&mut random, 16, states, arcs, others);
        call(&samples::card(symbols, &machines), 1, 0, 6_000)
    });
    of_b.into_iter().chain(at_the_limits).collect()
}

/// Calls by chance until there are as many of each kind and number as wanted.
pub fn corpus() -> Corpus {
    let generator = Generator::of_the_corpus();
    let mut random = Random::new(SEED);
    let mut corpus = Corpus { cases: vec![], lines: String::new(), count: 0 };
    let mut add = |call: &Call, outcome: &Outcome| {
        corpus.cases.extend(fields(call));
        corpus.lines += &line(call, outcome);
        corpus.lines.push('\n');
        corpus.count += 1;
    };
    for call in longest().into_iter().chain(empty_words()).chain(weighings()).chain(joins()) {
        add(&call, &reference(&call));
    }
    let numbers = |kind: usize| [0].into_iter().chain(KINDS[kind].1.iter().copied());
    let mut missing: BTreeMap<(usize, u32), usize> = (0..KINDS.len())
        .filter(|&kind| !LEFT_OUT.contains(&KINDS[kind].0))
        .flat_map(|kind| numbers(kind).map(move |number| ((kind, number), wanted(kind, number))))
        .collect();
    let mut large = 0;
    while missing.values().any(|&count| count > 0) {
        let mut call = filled(generator.call(&mut random));
        if random.percent(40) {
            call = call.twin().unwrap_or(call);
        }
        if !fits(&call) {
            continue;
        }
        let length = fields(&call).len();
        if length > LARGE && large + length > MOST_OF_LARGE {
            continue;
        }
        let outcome = reference(&call);
        let count = missing.get_mut(&(call.kind(), outcome.number)).expect("a refusal of this call");
        if *count == 0 {
            continue;
        }
        *count -= 1;
        large += if length > LARGE { length } else { 0 };
        add(&call, &outcome);
    }
    assert!(corpus.cases.len() <= MOST);
    corpus
}
