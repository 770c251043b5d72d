//! Candidates by chance: ways through a card's machines, and faults in them.

use crate::candidate::Pair;
use crate::card::Card;
use crate::random::Random;

fn any_symbol(random: &mut Random, set: u64) -> u8 {
    let symbols: Vec<u8> = (0..64).filter(|&symbol| set >> symbol & 1 == 1).collect();
    random.one_of(&symbols)
}

/// A pair that all machines take from these states, if a few tries find one: a pair of one machine's arc, or of one arc
/// of each.
fn any_pair(random: &mut Random, card: &Card, states: &[usize]) -> Option<(u8, u8)> {
    for _ in 0..30 {
        let alone = random.percent(50).then(|| random.below(states.len()));
        let (mut inputs, mut outputs) = (u64::MAX, u64::MAX);
        for (place, (machine, &state)) in card.machines.iter().zip(states).enumerate() {
            if alone.map_or(false, |alone| alone != place) {
                continue;
            }
            let arcs: Vec<_> = machine.arcs.iter().filter(|arc| arc.from == state).collect();
            if arcs.is_empty() {
                return None;
            }
            let arc = random.one_of(&arcs);
            inputs &= arc.inputs;
            outputs &= arc.outputs;
        }
        if inputs == 0 || outputs == 0 {
            continue;
        }
        let (input, output) = (any_symbol(random, inputs), any_symbol(random, outputs));
        let taken = card.machines.iter().zip(states).all(|(m, &state)| m.step(state, input, output).is_some());
        if taken && (input, output) != (0, 0) {
            return Some((input, output));
        }
    }
    None
}

/// Pairs that all machines take in turn, as many as asked if the way does not end before.
pub fn walk(random: &mut Random, card: &Card, pairs: usize) -> Vec<u8> {
    let mut states = vec![0; card.machines.len()];
    let mut candidate = Vec::new();
    for _ in 0..pairs {
        let (input, output) = match any_pair(random, card, &states) {
            Some(pair) => pair,
            None => break,
        };
        for (machine, state) in card.machines.iter().zip(&mut states) {
            *state = machine.step(*state, input, output).expect("an arc that takes the pair").0;
        }
        candidate.extend([input, output]);
    }
    candidate
}

/// A candidate's bytes.
pub fn bytes_of(candidate: Vec<Pair>) -> Vec<u8> {
    candidate.into_iter().flat_map(|(input, output)| [input, output]).collect()
}

/// A fault: refusals 13 and 14, for most of them.
pub fn damage_a_candidate(random: &mut Random, candidate: &mut Vec<u8>, symbols: u8) {
    let pairs = candidate.len() / 2;
    let pair = 2 * random.below(pairs.max(1));
    let byte = random.below(candidate.len().max(1));
    match random.below(9) {
        0 if pairs > 0 => {
            candidate.pop();
        }
        1 => candidate.push(random.byte()),
        2 => drop(candidate.splice(pair..pair, [0, 0])),
        3 if pairs > 0 => candidate[byte] = symbols + 1,
        4 if pairs > 0 => candidate[byte] = random.one_of(&[64, 128, 255]),
        5 if pairs > 0 => candidate[byte] = random.between(0, symbols as usize) as u8,
        6 if pairs > 0 => drop(candidate.drain(pair..pair + 2)),
        7 if pairs > 1 => candidate.swap(pair, (pair + 2) % (2 * pairs)),
        _ => candidate.extend([random.between(0, symbols as usize) as u8, random.between(1, symbols as usize) as u8]),
    }
}
