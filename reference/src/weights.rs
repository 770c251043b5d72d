//! Harmonic Grammar: the candidate with the smallest sum of weight × count. It is found best first: of the candidates begun,
//! the lightest goes on by every pair, and the first one at an end is the best. A cull by sums says the same; for small cards
//! all candidates are listed as well.

use crate::candidate::{profile, Evaluation, Pair};
use crate::card::{read_card, Card};
use crate::cull::Graph;
use crate::optimizer::{check_word, list, write_pairs};
use crate::{Profile, Refusal};
use std::cmp::Reverse;
use std::collections::BinaryHeap;

/// The most that a machine weighs, in thousandths.
pub const HEAVIEST: u32 = 4_000_000_000;

/// What a profile weighs, in thousandths.
pub fn weight(weights: &[u32], profile: &Profile) -> u64 {
    weights.iter().zip(profile).map(|(&weight, &count)| weight as u64 * count as u64).sum()
}

/// The best candidate for a word on an accepted card. A pair never makes a candidate lighter or shorter, so whichever comes to
/// a node first is the best one that comes there.
pub fn best_by_weights(card: &Card, weights: &[u32], word: &[u8]) -> Option<Vec<Pair>> {
    let graph = Graph::new(card, word);
    // sum, pair count, pairs, and the node that they lead to; none where the candidate is at an end
    let mut begun = BinaryHeap::from([Reverse((0, 0, vec![], Some(0)))]);
    let mut passed = vec![false; graph.edges.len()];
    while let Some(Reverse((sum, length, pairs, node))) = begun.pop() {
        let node = match node {
            Some(node) => node,
            None => return Some(pairs),
        };
        if std::mem::replace(&mut passed[node], true) {
            continue;
        }
        for edge in graph.edges[node].iter().filter(|edge| !passed[edge.to]) {
            let longer = [&pairs[..], &[edge.pair]].concat();
            begun.push(Reverse((sum + weight(weights, &edge.marks), length + 1, longer, Some(edge.to))));
        }
        if let Some(ending) = &graph.endings[node] {
            begun.push(Reverse((sum + weight(weights, ending), length, pairs, None)));
        }
    }
    None
}

/// The same by the cull: the ways with the smallest sum, of them those with the fewest pairs, and of them the smallest bytes.
pub fn best_by_culling_sums(card: &Card, weights: &[u32], word: &[u8]) -> Option<Vec<Pair>> {
    let mut graph = Graph::new(card, word);
    graph.cull_by(|marks| weight(weights, marks));
    graph.shortest()
}

/// The best of all candidates that have at most `most` pairs.
pub fn best_by_weights_listed(card: &Card, weights: &[u32], word: &[u8], most: usize) -> Option<Vec<Pair>> {
    let mut best: Option<(u64, usize, Vec<Pair>)> = None;
    list(card, word, most, &mut |candidate, profile| {
        let found = (weight(weights, profile), candidate.len(), candidate.to_vec());
        if best.as_ref().map_or(true, |old| found < *old) {
            best = Some(found);
        }
    });
    best.map(|(_, _, candidate)| candidate)
}

/// Whether there are other candidates with the best's sum: longer ones, and ones as long as it.
pub fn ties(card: &Card, weights: &[u32], word: &[u8]) -> (bool, bool) {
    let mut graph = Graph::new(card, word);
    graph.cull_by(|marks| weight(weights, marks));
    let longer = graph.lengths_differ();
    graph.cull_pairs();
    (longer, graph.forks())
}

/// Whether all weights are above zero and each is more than `count` times the sum of those ranked below it.
pub fn dominates(weights: &[u32], ranking: &[u8], count: u16) -> bool {
    let weight = |machine: &u8| weights[*machine as usize] as u64;
    let below = |place: usize| ranking[place + 1..].iter().map(weight).sum::<u64>();
    let above = |place: usize| weight(&ranking[place]) > count as u64 * below(place);
    weights.iter().all(|&weight| weight > 0) && (0..ranking.len()).all(above)
}

/// The whole call: refusals 1 to 6, 26, 8, 9, 10, 12; the result with the sum in thousandths.
pub fn optimize_weights(
    card: &[u8],
    weights: &[u32],
    word: &[u8],
    work: usize,
    answer: &mut [u8],
) -> Result<(Evaluation, u64), Refusal> {
    let card = read_card(card)?;
    if weights.len() != card.machines.len() || weights.iter().any(|&weight| weight > HEAVIEST) {
        return Err(26);
    }
    check_word(&card, word)?;
    if work < 2 * (word.len() + 1) * card.states() {
        return Err(9);
    }
    let candidate = best_by_weights(&card, weights, word).ok_or(10)?;
    let profile = profile(&card.machines, &candidate).expect("the best is complete");
    write_pairs(&candidate, answer)?;
    let evaluation = Evaluation { profile, pairs: candidate.len(), word_length: word.len() };
    Ok((evaluation, weight(weights, &profile)))
}
