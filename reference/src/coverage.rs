//! What a comparison met: how often each call answered each number, and the sizes of what it was lent.

use crate::call::{reference, Call, Outcome, KINDS};
use crate::card::{read_card, share_a_pair, Arc, Card, Machine};
use crate::join::{join, joined};
use crate::live::Step;
use crate::weights::{ties, HEAVIEST};
use std::collections::{BTreeMap, BTreeSet};
use std::fmt;

/// How often something was met.
type Counts = BTreeMap<i64, u64>;

/// How often a call has to answer each of its refusals, and slices to have each of the lengths around a limit.
const OFTEN: u64 = 100;

/// What is said of a tableau.
const VERDICTS: [(i64, &str); 3] = [(1, "right"), (2, "another row"), (3, "not in the table")];

/// What an answer of the optimizer can have.
const TRAITS: [&str; 10] = [
    "no pair",
    "an insertion",
    "an insertion at its end",
    "a deletion",
    "another symbol",
    "marks",
    "ending marks",
    "insertions without marks",
    "an arc of kind 1",
    "an arc of kind 2",
];

/// What the outputs of an answered call can have, with one input of it: of its card; of the pairs of its best.
const OUTPUTS: [&str; 6] = [
    "outputs that no arc tells apart",
    "outputs that only the last machine tells apart",
    "an output that one machine takes from no state",
    "a best that has the lesser of two that no arc tells apart",
    "a best that has the greater of two that only the last machine tells apart",
    "a best that has one that a machine takes from its last state alone",
];

/// Which of `OUTPUTS` a call with that word and these pairs of its best has.
fn outputs(card: &Card, word: &[u8], pairs: &[u8]) -> [bool; 6] {
    let last = card.machines.len() - 1;
    let no_arc_has_one = |lesser: u8, greater: u8| {
        let both_or_neither = |arc: &Arc| arc.outputs >> lesser & 1 == arc.outputs >> greater & 1;
        card.machines.iter().flat_map(|machine| &machine.arcs).all(both_or_neither)
    };
    let mut met = [false; 6];
    for input in BTreeSet::from_iter(word.iter().copied().chain([0])) {
        let in_best = |output: u8| pairs.chunks(2).any(|pair| pair == [input, output]);
        // of the outputs that each machine takes from some state
        let mut lesser_ones: Vec<(u8, Vec<_>)> = Vec::new();
        // 0:0 is no pair
        for greater in (input == 0) as u8..=card.symbols {
            let columns: Vec<_> = card.machines.iter().map(|machine| machine.column(input, greater)).collect();
            let taking = columns.iter().filter(|column| column.iter().any(Option::is_some)).count();
            met[2] |= last > 0 && taking == last;
            if taking <= last {
                continue;
            }
            let from_last_alone = |column: &Vec<Option<_>>| {
                column.len() > 1 && column.iter().position(Option::is_some) == Some(column.len() - 1)
            };
            met[5] |= in_best(greater) && columns.iter().any(from_last_alone);
            for (lesser, others) in &lesser_ones {
                if others[..last] != columns[..last] {
                    continue;
                }
                let no_arc = others[last] == columns[last] && no_arc_has_one(*lesser, greater);
                let only_last = last > 0 && others[last] != columns[last];
                met[0] |= no_arc;
                met[1] |= only_last;
                met[3] |= no_arc && in_best(*lesser);
                met[4] |= only_last && in_best(greater);
            }
            lesser_ones.push((greater, columns));
        }
    }
    met
}

/// What is met of weights: of answers; of refusals by 26.
const WEIGHINGS: [&str; 9] = [
    "answered, all weights 0",
    "answered, all weights alike",
    "answered, a weight at the limit",
    "answered, longer candidates with the same sum",
    "answered, others as long with the same sum",
    "answered as the ranked engine",
    "refused, one above the limit",
    "refused, too few",
    "refused, too many",
];

/// Which of the first five of `WEIGHINGS` an answered call has.
fn weighings(card: &Card, weights: &[u32], word: &[u8]) -> [bool; 5] {
    let (longer, as_long) = ties(card, weights, word);
    let alike = weights.len() > 1 && weights.iter().all(|&weight| weight == weights[0]);
    [weights.iter().all(|&weight| weight == 0), alike && weights[0] > 0, weights.contains(&HEAVIEST), longer, as_long]
}

/// What is met of machines to join: of new cards; of refusals by 27 and 28; of candidates on the two cards.
const JOININGS: [&str; 12] = [
    "answered, 32 states",
    "answered, 255 arcs",
    "answered, arcs of kind 1 or 2",
    "answered, ending marks",
    "answered, arcs that share only 0:0",
    "refused, one machine twice",
    "refused, no machine of the card",
    "refused, marks of both",
    "refused, states alone",
    "refused, 256 arcs",
    "candidates complete on both cards",
    "candidates complete on neither",
];

/// Which of the first ten of `JOININGS` a call on an accepted card has.
fn joinings(card: &Card, first: u8, second: u8, number: u32) -> [bool; 10] {
    let (low, high) = (first.min(second) as usize, first.max(second) as usize);
    let mut met = [false; 10];
    if high >= card.machines.len() || low == high {
        met[if high >= card.machines.len() { 6 } else { 5 }] = true;
        return met;
    }
    let (lower, other) = (&card.machines[low], &card.machines[high]);
    let made = joined(lower, other);
    let (states, arcs) = (made.endings.len(), made.arcs.len());
    let share_only_0_0 = |a: &Arc, b: &Arc| a.inputs & b.inputs & a.outputs & b.outputs & 1 == 1 && !share_a_pair(a, b);
    if number == 0 {
        met[0] = states == 32;
        met[1] = arcs == 255;
        met[2] = made.arcs.iter().any(|arc| arc.kind > 0);
        met[3] = made.endings.iter().flatten().any(|&marks| marks > 0);
        met[4] = lower.arcs.iter().any(|a| other.arcs.iter().any(|b| share_only_0_0(a, b)));
    }
    met[7] = number == 27;
    met[8] = number == 28 && arcs <= 255;
    met[9] = number == 28 && states <= 32 && arcs == 256;
    met
}

/// The marks of a machine at the end of a complete candidate.
fn ending_marks(machine: &Machine, pairs: &[u8]) -> u16 {
    let last = machine.travelled(pairs).last().map_or(0, |arc| arc.to);
    machine.endings[last].expect("a final state")
}

/// Which of `TRAITS` these pairs and counts have.
fn traits(card: &Card, pairs: &[u8], counts: &[usize]) -> [bool; 10] {
    let any = |test: fn(u8, u8) -> bool| pairs.chunks(2).any(|pair| test(pair[0], pair[1]));
    let inserts = any(|input, _| input == 0);
    let marks = counts.iter().any(|&count| count > 0);
    let of_kind =
        |kind| card.machines.iter().any(|machine| machine.travelled(pairs).iter().any(|arc| arc.kind == kind));
    [
        pairs.is_empty(),
        inserts,
        pairs.chunks(2).next_back().map_or(false, |pair| pair[0] == 0),
        any(|_, output| output == 0),
        any(|input, output| input != 0 && output != 0 && input != output),
        marks,
        card.machines.iter().any(|machine| ending_marks(machine, pairs) > 0),
        inserts && !marks,
        of_kind(1),
        of_kind(2),
    ]
}

#[derive(Default)]
pub struct Coverage {
    /// For each call in the order of `KINDS`, how often it answered each number.
    numbers: [Counts; KINDS.len()],
    /// Of the optimizer's calls that got past check 9: K, P, S, n, and the pairs of those that are answered.
    machines: Counts,
    states: Counts,
    symbols: Counts,
    words: Counts,
    pairs: Counts,
    /// How often an answer has each of `TRAITS`.
    traits: [u64; 10],
    /// How often an answered call has each of `OUTPUTS`.
    outputs: [u64; 6],
    /// What is answered for the empty word.
    empty_words: Counts,
    /// Lengths of slices, less what is needed.
    work: Counts,
    answer: Counts,
    target: Counts,
    /// Pairs of candidates that are evaluated, and of lists of conditions, less the most that are taken.
    candidates: Counts,
    conditions: Counts,
    /// Of the tableaux that are judged: verdicts, and row counts.
    verdicts: Counts,
    rows: Counts,
    /// Row counts less the most that there is room for, of adding; steps of live tableaux, by the numbers that they answered.
    used: Counts,
    steps: Counts,
    /// Of the calls with sets past check 9: positions, and the symbols of the largest set.
    positions: Counts,
    set_sizes: Counts,
    /// Lengths of work slices of the calls with weights, less what is needed.
    wide_work: Counts,
    /// How often the calls with weights had each of `WEIGHINGS`.
    weighings: [u64; 9],
    /// Lengths of targets of joined cards, less what is needed.
    joined: Counts,
    /// How often the calls that join had each of `JOININGS`.
    joinings: [u64; 12],
}

fn count(counts: &mut Counts, value: usize) {
    *counts.entry(value as i64).or_default() += 1;
}

/// Counts a difference that is small.
fn count_around(counts: &mut Counts, value: usize, limit: usize) {
    let difference = value as i64 - limit as i64;
    if difference.abs() <= 2 {
        *counts.entry(difference).or_default() += 1;
    }
}

/// The state counts' product of a card that is laid out as it should.
fn product(card: &[u8]) -> usize {
    let offset = |machine: usize| card[2 + 4 * machine] as usize | (card[3 + 4 * machine] as usize) << 8;
    (0..card[0] as usize).map(|machine| card[offset(machine)] as usize).product()
}

/// The pairs of the best candidate, if there is one. Where the answer slice was too short the call does not say them.
fn best_pairs(call: &Call, outcome: &Outcome) -> Option<usize> {
    let mut call = call.clone();
    match (&mut call, outcome.number) {
        (Call::Optimize { answer, .. }, 12) => {
            answer.resize(6_398, 0);
            Some(reference(&call).result[6])
        }
        (_, 0) => Some(outcome.result[6]),
        _ => None,
    }
}

impl Coverage {
    /// Takes a call in, with its right outcome.
    pub fn take(&mut self, call: &Call, outcome: &Outcome) {
        count(&mut self.numbers[call.kind()], outcome.number as usize);
        match call {
            Call::Optimize { card, word, work, answer, .. } if matches!(outcome.number, 0 | 9..) => {
                let need = 8 * (word.len() + 1) * product(card);
                count_around(&mut self.work, work.len(), need);
                if word.is_empty() {
                    count(&mut self.empty_words, outcome.number as usize);
                }
                if outcome.number != 9 {
                    count(&mut self.machines, card[0] as usize);
                    count(&mut self.symbols, card[1] as usize);
                    count(&mut self.states, product(card));
                    count(&mut self.words, word.len());
                }
                if outcome.number == 0 {
                    let read = read_card(card).expect("an accepted card");
                    let pairs = &outcome.slice[..2 * outcome.result[6]];
                    for (times, met) in self.traits.iter_mut().zip(traits(&read, pairs, &outcome.result[..6])) {
                        *times += met as u64;
                    }
                    for (times, met) in self.outputs.iter_mut().zip(outputs(&read, word, pairs)) {
                        *times += met as u64;
                    }
                }
                if let Some(pairs) = best_pairs(call, outcome) {
                    count_around(&mut self.answer, answer.len(), 2 * pairs);
                    count(&mut self.pairs, pairs);
                }
            }
            Call::OptimizeWeights { card, weights, word, work, .. } if matches!(outcome.number, 0 | 9 | 10 | 12) => {
                count_around(&mut self.wide_work, work.len(), 2 * (word.len() + 1) * product(card));
                if outcome.number == 0 {
                    let read = read_card(card).expect("an accepted card");
                    for (times, met) in self.weighings.iter_mut().zip(weighings(&read, weights, word)) {
                        *times += met as u64;
                    }
                }
            }
            Call::OptimizeWeights { card, weights, .. } if outcome.number == 26 => {
                let machines = card[0] as usize;
                let met = [weights.contains(&(HEAVIEST + 1)), weights.len() < machines, weights.len() > machines];
                for (times, met) in self.weighings[6..].iter_mut().zip(met) {
                    *times += met as u64;
                }
            }
            Call::OptimizeSets { sets, .. } if matches!(outcome.number, 0 | 10 | 12) => {
                count(&mut self.positions, sets.len());
                count(&mut self.set_sizes, sets.iter().map(|set| set.count_ones() as usize).max().unwrap_or(0));
            }
            Call::Evaluate { candidate, .. } if !(1..=6).contains(&outcome.number) => {
                count_around(&mut self.candidates, candidate.len() / 2, 3_199);
            }
            Call::Join { card, first, second, target } if matches!(outcome.number, 0 | 18 | 27 | 28) => {
                let read = read_card(card).expect("an accepted card");
                let met = joinings(&read, *first, *second, outcome.number);
                for (times, met) in self.joinings.iter_mut().zip(met) {
                    *times += met as u64;
                }
                if let Ok(length) = join(card, *first, *second, &mut vec![0; 32_000]) {
                    count_around(&mut self.joined, target.len(), length);
                }
            }
            Call::Pack { lengths, parts, target, .. } if matches!(outcome.number, 0 | 18) => {
                count_around(&mut self.target, target.len(), 2 + 4 * lengths.len() + parts.len());
            }
            Call::FindRanking { conditions, .. } if outcome.number != 1 => {
                count_around(&mut self.conditions, conditions.len() / 2, 64);
            }
            Call::Judge { tableau, .. } if outcome.number == 0 => {
                count(&mut self.verdicts, outcome.result[0]);
                count(&mut self.rows, tableau[0] as usize);
            }
            Call::Rows { used, rows, step: Step::Add(_), .. } if !matches!(outcome.number, 1 | 7) => {
                count_around(&mut self.used, *used, rows.len().min(32));
            }
            Call::Live { steps, .. } => {
                let mut rest = &outcome.result[..];
                for step in steps {
                    count(&mut self.steps, rest[0]);
                    rest = &rest[1 + step.numbers()..];
                }
            }
            _ => (),
        }
    }

    /// Takes in that a call with weights was answered as the ranked engine has to.
    pub fn take_agreement(&mut self) {
        self.weighings[5] += 1;
    }

    /// Takes in that a candidate, complete or not, has on a joined card what it has on the old one.
    pub fn take_candidate(&mut self, complete: bool) {
        self.joinings[if complete { 10 } else { 11 }] += 1;
    }

    /// The refusals, and acceptance, that a call did not answer once.
    pub fn missing_numbers(&self) -> Vec<String> {
        let mut missing = Vec::new();
        for ((name, refusals), counts) in KINDS.iter().zip(&self.numbers) {
            let unmet = |number: &&u32| !counts.contains_key(&(**number as i64));
            missing.extend([0].iter().chain(*refusals).filter(unmet).map(|number| format!("{name} answers {number}")));
        }
        missing
    }

    /// What was not met as often as a whole run has to.
    pub fn missing(&self) -> Vec<String> {
        let mut missing = Vec::new();
        let mut ask = |what: String, counts: &Counts, value: i64, often: u64| {
            let times = counts.get(&value).copied().unwrap_or(0);
            if times < often {
                missing.push(format!("{what}: {times} times, {often} are asked"));
            }
        };
        for ((name, refusals), counts) in KINDS.iter().zip(&self.numbers) {
            for &number in [0].iter().chain(*refusals) {
                ask(format!("{name} answers {number}"), counts, number as i64, OFTEN);
            }
        }
        for (name, counts, values) in [
            ("machines", &self.machines, 1..=6),
            ("symbols", &self.symbols, 1..=63),
            ("symbols of a word", &self.words, 0..=24),
            ("positions with sets", &self.positions, 0..=24),
            ("symbols in a set", &self.set_sizes, 1..=16),
        ] {
            for value in values {
                ask(format!("{value} {name}"), counts, value, 1);
            }
        }
        for value in [1, 128] {
            ask(format!("{value} joined states"), &self.states, value, 1);
        }
        for (name, &times) in TRAITS.iter().zip(&self.traits) {
            ask(format!("an answer with {name}"), &Counts::from([(0, times)]), 0, OFTEN);
        }
        for (name, &times) in OUTPUTS.iter().zip(&self.outputs) {
            ask(format!("a call with {name}"), &Counts::from([(0, times)]), 0, OFTEN);
        }
        for (name, &times) in WEIGHINGS.iter().zip(&self.weighings) {
            ask(format!("weights {name}"), &Counts::from([(0, times)]), 0, OFTEN);
        }
        for (name, &times) in JOININGS.iter().zip(&self.joinings) {
            ask(format!("joining {name}"), &Counts::from([(0, times)]), 0, OFTEN);
        }
        for number in [0, 9, 10, 12] {
            ask(format!("the empty word answered {number}"), &self.empty_words, number, OFTEN / 2);
        }
        for (number, name) in VERDICTS {
            ask(format!("the verdict '{name}'"), &self.verdicts, number, OFTEN);
        }
        for value in 1..=32 {
            ask(format!("{value} rows"), &self.rows, value, 1);
        }
        for number in [0, 23, 24] {
            ask(format!("a step of a live tableau that answers {number}"), &self.steps, number, OFTEN);
        }
        ask("3199 pairs answered".to_string(), &self.pairs, 3_199, 1);
        for (name, counts, values) in [
            ("work slice", &self.work, -1..=1),
            ("work slice with weights", &self.wide_work, -1..=1),
            ("answer slice", &self.answer, -2..=2),
            ("target slice", &self.target, -2..=1),
            ("target slice of a joined card", &self.joined, -1..=1),
            ("candidate", &self.candidates, -1..=1),
            ("list of conditions", &self.conditions, -1..=1),
            ("row count", &self.used, -1..=1),
        ] {
            for value in values {
                ask(format!("{name} at its limit {value:+}"), counts, value, OFTEN);
            }
        }
        missing
    }
}

/// The lowest and the highest value, and how many there are.
fn range(counts: &Counts) -> String {
    match (counts.keys().next(), counts.keys().next_back()) {
        (Some(lowest), Some(highest)) => format!("{lowest} to {highest}, {} different", counts.len()),
        _ => "none".to_string(),
    }
}

fn each(counts: &Counts, sign: bool) -> String {
    let text = |(value, times): (&i64, &u64)| match sign {
        true => format!("{value:+}: {times}"),
        false => format!("{value}: {times}"),
    };
    counts.iter().map(text).collect::<Vec<_>>().join("  ")
}

impl fmt::Display for Coverage {
    fn fmt(&self, text: &mut fmt::Formatter) -> fmt::Result {
        writeln!(text, "how often each call answered each number (0 accepted)")?;
        for ((name, _), counts) in KINDS.iter().zip(&self.numbers) {
            writeln!(text, "  {name:<17}{:>7}  {}", counts.values().sum::<u64>(), each(counts, false))?;
        }
        writeln!(text, "of the optimizer's calls past check 9")?;
        writeln!(text, "  machines, K          {}", each(&self.machines, false))?;
        writeln!(text, "  joined states, P     {}", range(&self.states))?;
        writeln!(text, "  symbols, S           {}", range(&self.symbols))?;
        writeln!(text, "  word lengths         {}", range(&self.words))?;
        writeln!(text, "  empty words          {}", each(&self.empty_words, false))?;
        writeln!(text, "  pairs of the best    {}", range(&self.pairs))?;
        for (name, times) in TRAITS.iter().zip(&self.traits) {
            writeln!(text, "  answers with {name:<25} {times}")?;
        }
        for (name, times) in OUTPUTS.iter().zip(&self.outputs) {
            writeln!(text, "  calls with {name:<73} {times}")?;
        }
        writeln!(text, "  positions with sets  {}", range(&self.positions))?;
        writeln!(text, "  symbols in a set     {}", range(&self.set_sizes))?;
        writeln!(text, "of the calls with weights")?;
        for (name, times) in WEIGHINGS.iter().zip(&self.weighings) {
            writeln!(text, "  {name:<46} {times}")?;
        }
        writeln!(text, "of the calls that join")?;
        for (name, times) in JOININGS.iter().zip(&self.joinings) {
            writeln!(text, "  {name:<46} {times}")?;
        }
        writeln!(text, "of the tableaux that are judged")?;
        for (number, name) in VERDICTS {
            writeln!(text, "  {name:<20} {}", self.verdicts.get(&number).unwrap_or(&0))?;
        }
        writeln!(text, "  rows                 {}", range(&self.rows))?;
        writeln!(text, "lengths around their limits")?;
        writeln!(text, "  work slice           {}", each(&self.work, true))?;
        writeln!(text, "  work with weights    {}", each(&self.wide_work, true))?;
        writeln!(text, "  answer slice         {}", each(&self.answer, true))?;
        writeln!(text, "  target slice         {}", each(&self.target, true))?;
        writeln!(text, "  target, joined       {}", each(&self.joined, true))?;
        writeln!(text, "  pairs of a candidate {}", each(&self.candidates, true))?;
        writeln!(text, "  pairs of conditions  {}", each(&self.conditions, true))?;
        writeln!(text, "  rows before adding   {}", each(&self.used, true))?;
        write!(text, "steps of live tableaux {}", each(&self.steps, false))
    }
}
