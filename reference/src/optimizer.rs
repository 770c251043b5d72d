//! The optimizer by rounds: from the word's end to its start, a position at a time, every state takes the best of its
//! ending and its pairs, again and again, until nothing changes. For small cards also by listing all candidates.

use crate::candidate::{profile, Evaluation, Pair};
use crate::card::{read_card, Card};
use crate::cull::best_by_culling;
use crate::ranking::{harmony, is_ranking};
use crate::{Profile, Refusal};
use std::collections::{BTreeMap, BTreeSet};

/// The counts from the highest ranked machine down, unused places 0, then the pair count: the smaller array is the better.
type Cost = [u32; 7];

/// A pair's output, the state that it leads to, and what it costs.
type Step = (u8, usize, Cost);

fn sum(a: &Cost, b: &Cost) -> Cost {
    std::array::from_fn(|place| a[place] + b[place])
}

/// The states of all machines as one number, and back.
fn joined(card: &Card, states: &[usize]) -> usize {
    card.machines.iter().zip(states).fold(0, |number, (machine, state)| number * machine.endings.len() + state)
}

fn apart(card: &Card, mut number: usize) -> Vec<usize> {
    let mut states = Vec::new();
    for machine in card.machines.iter().rev() {
        states.insert(0, number % machine.endings.len());
        number /= machine.endings.len();
    }
    states
}

/// For each joined state its steps with this input, in the order of the outputs.
fn steps(card: &Card, ranking: &[u8], input: u8) -> Vec<Vec<Step>> {
    let outputs = (input == 0) as u8..=card.symbols;
    let tables: Vec<Vec<Vec<_>>> = card
        .machines
        .iter()
        .map(|machine| {
            let row = |state| (0..=card.symbols).map(|output| machine.step(state, input, output)).collect();
            (0..machine.endings.len()).map(row).collect()
        })
        .collect();
    let from = |number| {
        let states = apart(card, number);
        let step = |output| {
            let taken: Option<Vec<_>> =
                (0..states.len()).map(|machine| tables[machine][states[machine]][output as usize]).collect();
            let taken = taken?;
            let mut cost = [0; 7];
            for (place, &machine) in ranking.iter().enumerate() {
                cost[place] = taken[machine as usize].1 as u32;
            }
            cost[6] = 1;
            let next: Vec<usize> = taken.iter().map(|&(state, _)| state).collect();
            Some((output, joined(card, &next), cost))
        };
        outputs.clone().filter_map(step).collect()
    };
    (0..card.states()).map(from).collect()
}

/// What it costs to end in a joined state, if every machine may.
fn ending(card: &Card, ranking: &[u8], number: usize) -> Option<Cost> {
    let states = apart(card, number);
    let mut cost = [0; 7];
    for (place, &machine) in ranking.iter().enumerate() {
        let machine = machine as usize;
        cost[place] = card.machines[machine].endings[states[machine]]? as u32;
    }
    Some(cost)
}

/// The best candidate for a word on an accepted card.
pub fn best(card: &Card, ranking: &[u8], word: &[u8]) -> Option<Vec<Pair>> {
    best_of_positions(card, ranking, &word.iter().map(|&symbol| vec![symbol]).collect::<Vec<_>>())
}

/// The best candidate over the words with one of the symbols of each position, which are in order.
pub fn best_of_positions(card: &Card, ranking: &[u8], positions: &[Vec<u8>]) -> Option<Vec<Pair>> {
    let insertions = steps(card, ranking, 0);
    let symbols: BTreeSet<u8> = positions.iter().flatten().copied().collect();
    let readings: BTreeMap<u8, _> = symbols.iter().map(|&symbol| (symbol, steps(card, ranking, symbol))).collect();
    let endings: Vec<Option<Cost>> = (0..card.states()).map(|number| ending(card, ranking, number)).collect();

    // labels[position][state]: the least cost from there to an end
    let mut labels: Vec<Vec<Option<Cost>>> = vec![vec![]; positions.len() + 1];
    for position in (0..=positions.len()).rev() {
        let mut here = if position == positions.len() {
            endings.clone()
        } else {
            let next = &labels[position + 1];
            let least = |state: usize| {
                let read = positions[position].iter().flat_map(|symbol| &readings[symbol][state]);
                read.filter_map(|(_, to, cost)| Some(sum(cost, &next[*to]?))).min()
            };
            (0..card.states()).map(least).collect()
        };
        let mut changed = true;
        while changed {
            changed = false;
            for state in 0..here.len() {
                for (_, to, cost) in &insertions[state] {
                    let rest = match &here[*to] {
                        Some(rest) => rest,
                        None => continue,
                    };
                    let found = sum(cost, rest);
                    if here[state].map_or(true, |old| found < old) {
                        here[state] = Some(found);
                        changed = true;
                    }
                }
            }
        }
        labels[position] = here;
    }

    // from the start, always the least pair that keeps to the label
    let (mut position, mut state) = (0, 0);
    let mut label = labels[0][0]?;
    let mut candidate = Vec::new();
    while label[6] > 0 {
        let inserted = insertions[state].iter().map(|step| (0, position, step));
        let read = positions
            .get(position)
            .into_iter()
            .flatten()
            .flat_map(|&symbol| readings[&symbol][state].iter().map(move |step| (symbol, position + 1, step)));
        let keeps = |(input, next, (output, to, cost)): (u8, usize, &Step)| {
            let rest = labels[next][*to]?;
            (sum(cost, &rest) == label).then_some(((input, *output), next, *to, rest))
        };
        let (pair, next, to, rest) = inserted.chain(read).find_map(keeps).expect("a label is the cost of some way");
        candidate.push(pair);
        (position, state, label) = (next, to, rest);
    }
    Some(candidate)
}

/// Hands on every complete candidate for a word that has at most `most` pairs.
pub fn list(card: &Card, word: &[u8], most: usize, found: &mut dyn FnMut(&[Pair], &Profile)) {
    fn extend(
        card: &Card,
        rest: &[u8],
        most: usize,
        states: &[usize],
        candidate: &mut Vec<Pair>,
        found: &mut dyn FnMut(&[Pair], &Profile),
    ) {
        if rest.is_empty() {
            if let Some(profile) = profile(&card.machines, candidate) {
                found(candidate, &profile);
            }
        }
        if candidate.len() == most {
            return;
        }
        for input in [0].iter().chain(rest.first()) {
            for output in 0..=card.symbols {
                let taken = card.machines.iter().zip(states).map(|(m, &state)| m.step(state, *input, output));
                let taken = match taken.collect::<Option<Vec<_>>>() {
                    Some(taken) => taken,
                    None => continue,
                };
                if (*input, output) != (0, 0) {
                    let next: Vec<usize> = taken.iter().map(|&(state, _)| state).collect();
                    let read = (*input != 0) as usize;
                    candidate.push((*input, output));
                    extend(card, &rest[read..], most, &next, candidate, found);
                    candidate.pop();
                }
            }
        }
    }
    extend(card, word, most, &vec![0; card.machines.len()], &mut vec![], found);
}

/// The best of all candidates that have at most `most` pairs.
pub fn best_by_listing(card: &Card, ranking: &[u8], word: &[u8], most: usize) -> Option<Vec<Pair>> {
    let mut best: Option<(Vec<Pair>, Profile)> = None;
    list(card, word, most, &mut |candidate, profile| {
        let better = best.as_ref().map_or(true, |(old, counts)| {
            let by_length = candidate.len().cmp(&old.len());
            harmony(ranking, profile, counts).then(by_length).then(candidate.cmp(old)).is_lt()
        });
        if better {
            best = Some((candidate.to_vec(), *profile));
        }
    });
    best.map(|(candidate, _)| candidate)
}

/// What every search is given: refusals 1 to 9. Of the work slice only the length is used.
pub fn checked(card: &[u8], ranking: &[u8], word: &[u8], work: usize) -> Result<Card, Refusal> {
    let card = read_card(card)?;
    check_ranking(&card, ranking)?;
    check_word(&card, word)?;
    check_work(&card, word.len(), work)?;
    Ok(card)
}

pub fn check_ranking(card: &Card, ranking: &[u8]) -> Result<(), Refusal> {
    if is_ranking(card.machines.len(), ranking) {
        Ok(())
    } else {
        Err(7)
    }
}

pub fn check_word(card: &Card, word: &[u8]) -> Result<(), Refusal> {
    if word.len() <= 24 && word.iter().all(|&symbol| symbol != 0 && symbol <= card.symbols) {
        Ok(())
    } else {
        Err(8)
    }
}

/// The work slice for so many positions.
pub fn check_work(card: &Card, positions: usize, work: usize) -> Result<(), Refusal> {
    if work >= 8 * (positions + 1) * card.states() {
        Ok(())
    } else {
        Err(9)
    }
}

/// The pairs in the front of the answer slice: refusal 12.
pub fn write_pairs(candidate: &[Pair], answer: &mut [u8]) -> Result<(), Refusal> {
    let bytes: Vec<u8> = candidate.iter().flat_map(|&(input, output)| [input, output]).collect();
    let front = answer.get_mut(..bytes.len()).ok_or(12u8)?;
    front.copy_from_slice(&bytes);
    Ok(())
}

/// How the best is found.
#[derive(Clone, Copy, Debug, PartialEq, Eq, Hash)]
pub enum Method {
    /// By labels that are compared down the ranking: here, by rounds.
    Ranked,
    /// By Ellison's cull.
    Cull,
}

/// The call by rounds.
pub fn optimize(
    card: &[u8],
    ranking: &[u8],
    word: &[u8],
    work: usize,
    answer: &mut [u8],
) -> Result<Evaluation, Refusal> {
    optimize_by(Method::Ranked, card, ranking, word, work, answer)
}

/// The whole call: refusals 1 to 10 and 12, the result, the pairs in the front of the answer slice.
pub fn optimize_by(
    method: Method,
    card: &[u8],
    ranking: &[u8],
    word: &[u8],
    work: usize,
    answer: &mut [u8],
) -> Result<Evaluation, Refusal> {
    let card = checked(card, ranking, word, work)?;
    let found = match method {
        Method::Ranked => best(&card, ranking, word),
        Method::Cull => best_by_culling(&card, ranking, word),
    };
    let candidate = found.ok_or(10)?;
    let profile = profile(&card.machines, &candidate).expect("the best is complete");
    assert!(candidate.len() <= 3_199 && profile.iter().all(|&count| count <= 48_000), "no node is passed twice");
    write_pairs(&candidate, answer)?;
    Ok(Evaluation { profile, pairs: candidate.len(), word_length: word.len() })
}
