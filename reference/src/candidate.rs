//! Candidates and their evaluation.

use crate::card::{read_card, Machine};
use crate::{Profile, Refusal};

/// A pair: in and out.
pub type Pair = (u8, u8);

#[derive(Clone, Debug, PartialEq, Eq)]
pub struct Evaluation {
    pub profile: Profile,
    pub pairs: usize,
    pub word_length: usize,
}

/// The marks of one machine over a candidate, those of its ending too, if it takes every pair and ends in a final state.
pub fn marks(machine: &Machine, candidate: &[Pair]) -> Option<u16> {
    let (mut state, mut sum) = (0, 0);
    for &(input, output) in candidate {
        let (next, more) = machine.step(state, input, output)?;
        state = next;
        sum += more;
    }
    Some(sum + machine.endings[state]?)
}

/// The profile of a complete candidate of at most 3,199 pairs.
pub fn profile(machines: &[Machine], candidate: &[Pair]) -> Option<Profile> {
    let mut profile = [0; 6];
    for (place, machine) in machines.iter().enumerate() {
        profile[place] = marks(machine, candidate)?;
    }
    Some(profile)
}

/// A candidate's pairs: refusal 13.
pub fn read_candidate(symbols: u8, bytes: &[u8]) -> Result<Vec<Pair>, Refusal> {
    if bytes.len() % 2 == 1 || bytes.len() / 2 > 3199 {
        return Err(13);
    }
    let candidate: Vec<Pair> = bytes.chunks(2).map(|pair| (pair[0], pair[1])).collect();
    if candidate.iter().any(|&(i, o)| i > symbols || o > symbols || (i, o) == (0, 0)) {
        return Err(13);
    }
    Ok(candidate)
}

pub fn evaluate(card: &[u8], bytes: &[u8]) -> Result<Evaluation, Refusal> {
    let card = read_card(card)?;
    let candidate = read_candidate(card.symbols, bytes)?;
    let profile = profile(&card.machines, &candidate).ok_or(14)?;
    let word_length = candidate.iter().filter(|&&(input, _)| input != 0).count();
    Ok(Evaluation { profile, pairs: candidate.len(), word_length })
}
