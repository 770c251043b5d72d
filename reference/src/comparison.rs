//! Another engine against this implementation, on calls by chance.

use crate::call::{reference, Call, Engine, Outcome};
use crate::card::read_card;
use crate::coverage::Coverage;
use crate::generators::{walk, Generator};
use crate::join::moved;
use crate::live::{Row, Step};
use crate::optimizer::Method;
use crate::random::Random;
use crate::shrinking::shrunk;
use crate::tableau::read_tableau;
use crate::weights::dominates;
use crate::Profile;
use std::fmt::Write;

/// What of an engine's outcome is not as it should be. The work slice is kept by refusals 1 to 9, 25 and 26; afterwards its
/// contents are left open.
pub fn differences(expected: &Outcome, found: &Outcome) -> Vec<String> {
    let mut list = Vec::new();
    if found.number != expected.number {
        list.push("number".to_string());
    }
    if found.result != expected.result {
        list.push("result".to_string());
    }
    if found.slice != expected.slice {
        list.push("lent slice at exit".to_string());
    }
    if matches!(expected.number, 1..=9 | 25 | 26) && !found.work_kept {
        list.push("work slice not kept".to_string());
    }
    list.extend(found.trespasses.iter().map(|place| format!("written: {place}")));
    list
}

/// Whether an engine answers a call in another way.
fn differs(engine: &dyn Engine, call: &Call) -> bool {
    !differences(&reference(call), &engine.answer(call)).is_empty()
}

/// A call that an engine answers in another way, found as the case of that number.
#[derive(Debug)]
pub struct Failure {
    pub case: usize,
    pub call: Call,
}

/// Compares on so many calls by chance, a search by both engines, up to the first one that is answered in another way.
pub fn compare(engine: &dyn Engine, seed: u64, count: usize) -> Result<Coverage, Box<Failure>> {
    let generator = Generator::default();
    let mut seeds = Random::new(seed);
    let mut coverage = Coverage::default();
    for case in 1..=count {
        // a case depends on the seed and its number alone
        let mut random = Random::new(seeds.number());
        let call = generator.call(&mut random);
        let twin = call.twin();
        let mut outcome = None;
        for call in [call].into_iter().chain(twin) {
            // both engines, and both methods of this implementation
            let expected = reference(&call);
            let agrees = *outcome.get_or_insert_with(|| expected.clone()) == expected;
            assert!(agrees, "this implementation disagrees with itself on {}", describe(&call));
            if !differences(&expected, &engine.answer(&call)).is_empty() {
                return Err(Box::new(Failure { case, call }));
            }
            coverage.take(&call, &expected);
            let also = [
                ranked_calls(&call, &expected, &mut coverage),
                evaluations(&call, &expected, &mut random, &mut coverage),
            ];
            for call in also.into_iter().flatten() {
                if differs(engine, &call) {
                    return Err(Box::new(Failure { case, call }));
                }
            }
        }
    }
    Ok(coverage)
}

/// The ranked call that a call with weights has to agree with, if there is one: its candidate and profile are the same.
fn ranked_calls(call: &Call, outcome: &Outcome, coverage: &mut Coverage) -> Vec<Call> {
    let ranked = match ranked_alike(call, outcome) {
        Some(ranked) => ranked,
        None => return vec![],
    };
    let found = reference(&ranked);
    let bytes = 2 * found.result[6];
    let alike = (&found.result[..], &found.slice[..bytes]) == (&outcome.result[..8], &outcome.slice[..bytes]);
    assert!(alike, "weights and ranking do not agree on {}", describe(call));
    coverage.take_agreement();
    vec![ranked]
}

/// Evaluations of candidates on a card and on the card with two machines joined: each is complete on both or on neither, and its
/// profile on the new card is the old one with the two counts added.
fn evaluations(call: &Call, outcome: &Outcome, random: &mut Random, coverage: &mut Coverage) -> Vec<Call> {
    let (old, first, second) = match call {
        Call::Join { card: old, first, second, .. } => (old, first, second),
        _ => return vec![],
    };
    if outcome.number != 0 {
        return vec![];
    }
    let new = &outcome.slice[..outcome.result[0]];
    let cards = [old, new].map(|card| read_card(card).expect("an accepted card"));
    let mut calls = Vec::new();
    for card in &cards {
        let pairs = random.below(12);
        let candidate = walk(random, card, pairs);
        let both = [old, new].map(|card| Call::Evaluate { card: card.to_vec(), candidate: candidate.clone() });
        let [before, after] = [&both[0], &both[1]].map(reference);
        let mut right = before.clone();
        if before.number == 0 {
            let counts: Profile = std::array::from_fn(|place| before.result[place] as u16);
            let counts = moved(&counts, *first.min(second) as usize, *first.max(second) as usize);
            right.result[..6].copy_from_slice(&counts.map(usize::from));
        }
        assert_eq!(after, right, "a candidate has another profile on the joined card of {}", describe(call));
        coverage.take_candidate(before.number == 0);
        calls.extend(both);
    }
    calls
}

/// The ranked call that a call with weights has to agree with: both answer, all weights are above zero, and each is more than
/// c times the sum of those ranked below it, c being the largest count in the two profiles.
fn ranked_alike(call: &Call, outcome: &Outcome) -> Option<Call> {
    let (card, weights, word) = match call {
        Call::OptimizeWeights { card, weights, word, .. } => (card, weights, word),
        _ => return None,
    };
    if outcome.number != 0 || weights.contains(&0) {
        return None;
    }
    let mut ranking: Vec<u8> = (0..weights.len() as u8).collect();
    ranking.sort_by_key(|&machine| std::cmp::Reverse(weights[machine as usize]));
    let ranked = Call::Optimize {
        method: Method::Ranked,
        card: card.clone(),
        ranking: ranking.clone(),
        word: word.clone(),
        work: vec![0; 25_600],
        answer: vec![0; 6_398],
    };
    let found = reference(&ranked);
    let counts = outcome.result[..6].iter().chain(&found.result[..6]);
    let most = *counts.max().expect("six counts");
    (found.number == 0 && dominates(weights, &ranking, most as u16)).then_some(ranked)
}

fn hexadecimal(bytes: &[u8]) -> String {
    match bytes {
        [] => "nothing".to_string(),
        [first, rest @ ..] if rest.len() >= 16 && rest.iter().all(|byte| byte == first) => {
            format!("{} bytes of {first:02x}", bytes.len())
        }
        _ => bytes.iter().map(|byte| format!("{byte:02x}")).collect::<Vec<_>>().join(" "),
    }
}

fn numbers(list: &[u16]) -> String {
    match list {
        [] => "nothing".to_string(),
        [first, rest @ ..] if rest.len() >= 8 && rest.iter().all(|number| number == first) => {
            format!("{} numbers of {first}", list.len())
        }
        _ => list.iter().map(u16::to_string).collect::<Vec<_>>().join(" "),
    }
}

fn symbols(set: u64) -> String {
    let symbols = (0..64).filter(|symbol| set >> symbol & 1 == 1);
    format!("{{{}}}", symbols.map(|symbol| symbol.to_string()).collect::<Vec<_>>().join(","))
}

/// An accepted card's machines in words.
fn describe_card(card: &[u8]) -> String {
    let card = match read_card(card) {
        Ok(card) => card,
        Err(_) => return String::new(),
    };
    let mut text = format!("  the card: {} symbols\n", card.symbols);
    for (place, machine) in card.machines.iter().enumerate() {
        let ending = |(state, ending): (usize, &Option<u16>)| match ending {
            None => None,
            Some(0) => Some(state.to_string()),
            Some(marks) => Some(format!("{state} with {marks} marks")),
        };
        let endings: Vec<String> = machine.endings.iter().enumerate().filter_map(ending).collect();
        let states = machine.endings.len();
        writeln!(text, "    machine {place}: {states} states, final {{{}}}", endings.join(", ")).unwrap();
        for arc in &machine.arcs {
            let (inputs, outputs) = (symbols(arc.inputs), symbols(arc.outputs));
            let kind = match arc.kind {
                0 => "",
                1 => ", in equal to out",
                _ => ", in unlike out",
            };
            let (from, to, marks) = (arc.from, arc.to, arc.marks);
            writeln!(text, "      {from} to {to}, {marks} marks, in {inputs}, out {outputs}{kind}").unwrap();
        }
    }
    text
}

/// Ids with their counts.
fn describe_rows(rows: &[Row]) -> String {
    let row = |row: &Row| format!("{} ({})", row.id, numbers(&row.counts));
    rows.iter().map(row).collect::<Vec<_>>().join(", ")
}

fn describe_step(step: &Step) -> String {
    match step {
        Step::Add(row) => format!("add {}", describe_rows(&[*row])),
        Step::Remove(id) => format!("remove {id}"),
        Step::Leader => "leader".to_string(),
    }
}

/// The rows of a tableau that is laid out as it should.
fn describe_tableau(tableau: &[u8]) -> String {
    let tableau = match read_tableau(tableau, 6) {
        Ok(tableau) => tableau,
        Err(_) => return String::new(),
    };
    let mut text = format!("  the tableau: row {} claimed\n", tableau.claimed);
    for (place, row) in tableau.rows.iter().enumerate() {
        writeln!(text, "    row {place}: counts {}, candidate {}", numbers(&row.counts), hexadecimal(&row.candidate))
            .unwrap();
    }
    text
}

/// A call whole: its slices in hexadecimal, and an accepted card in words as well.
pub fn describe(call: &Call) -> String {
    let mut text = format!("{}\n", call.name());
    let mut field = |name: &str, value: String| writeln!(text, "  {name:<10} {value}").unwrap();
    match call {
        Call::Optimize { card, ranking, word, work, answer, .. } => {
            field("card", hexadecimal(card));
            field("ranking", hexadecimal(ranking));
            field("word", hexadecimal(word));
            field("work", numbers(work));
            field("answer", hexadecimal(answer));
        }
        Call::OptimizeSets { card, ranking, sets, work, answer, .. } => {
            field("card", hexadecimal(card));
            field("ranking", hexadecimal(ranking));
            field("sets", sets.iter().map(|&set| symbols(set)).collect::<Vec<_>>().join(" "));
            field("work", numbers(work));
            field("answer", hexadecimal(answer));
        }
        Call::OptimizeWeights { card, weights, word, work, answer } => {
            field("card", hexadecimal(card));
            field("weights", weights.iter().map(u32::to_string).collect::<Vec<_>>().join(" "));
            field("word", hexadecimal(word));
            field("work", format!("{} numbers", work.len()));
            field("answer", hexadecimal(answer));
        }
        Call::Join { card, first, second, target } => {
            field("card", hexadecimal(card));
            field("machines", format!("{first} and {second}"));
            field("target", hexadecimal(target));
        }
        Call::Evaluate { card, candidate } => {
            field("card", hexadecimal(card));
            field("candidate", hexadecimal(candidate));
        }
        Call::ReadPart { card, machine } => {
            field("card", hexadecimal(card));
            field("machine", machine.to_string());
        }
        Call::Pack { symbols, lengths, parts, target } => {
            field("symbols", symbols.to_string());
            field("lengths", numbers(lengths));
            field("parts", hexadecimal(parts));
            field("target", hexadecimal(target));
        }
        Call::Compare { machines, ranking, first, second } => {
            field("machines", machines.to_string());
            field("ranking", hexadecimal(ranking));
            field("first", numbers(first));
            field("second", numbers(second));
        }
        Call::Condition { machines, first, second } => {
            field("machines", machines.to_string());
            field("first", numbers(first));
            field("second", numbers(second));
        }
        Call::FindRanking { machines, conditions } => {
            field("machines", machines.to_string());
            field("conditions", hexadecimal(conditions));
        }
        Call::Judge { card, ranking, word, work, tableau } => {
            field("card", hexadecimal(card));
            field("ranking", hexadecimal(ranking));
            field("word", hexadecimal(word));
            field("work", numbers(work));
            field("tableau", hexadecimal(tableau));
        }
        Call::Rows { machines, ranking, used, rows, step } => {
            field("machines", machines.to_string());
            field("ranking", hexadecimal(ranking));
            field("row count", used.to_string());
            field("rows", describe_rows(rows));
            field("step", describe_step(step));
        }
        Call::Live { machines, ranking, rows, steps } => {
            field("machines", machines.to_string());
            field("ranking", hexadecimal(ranking));
            field("rows", describe_rows(rows));
            for step in steps {
                field("step", describe_step(step));
            }
        }
    }
    if let Some(card) = call.card() {
        text += &describe_card(card);
    }
    if let Call::Judge { tableau, .. } = call {
        text += &describe_tableau(tableau);
    }
    text
}

fn describe_outcome(outcome: &Outcome) -> String {
    let result: Vec<String> = outcome.result.iter().map(usize::to_string).collect();
    let mut text = format!("number {}, result {}, lent slice ", outcome.number, result.join(" "));
    text += &hexadecimal(&outcome.slice);
    if !outcome.work_kept {
        text += ", work slice changed";
    }
    text
}

impl Failure {
    /// What is left of this call when no step makes it smaller and it is still answered in another way.
    pub fn shrunk(&self, engine: &dyn Engine) -> Call {
        shrunk(&self.call, &|call| differs(engine, call))
    }

    /// What is left of the call, whole, and what each side answers.
    pub fn report(&self, engine: &dyn Engine) -> String {
        let call = self.shrunk(engine);
        let (expected, found) = (reference(&call), engine.answer(&call));
        let mut text = format!("a smaller call that still is: {}", describe(&call));
        writeln!(text, "reference: {}", describe_outcome(&expected)).unwrap();
        writeln!(text, "engine:    {}", describe_outcome(&found)).unwrap();
        writeln!(text, "not alike: {}", differences(&expected, &found).join(", ")).unwrap();
        text
    }
}
