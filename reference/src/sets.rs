//! Sounds heard only in part: each position of the word is a set of symbols. The best over all words with one symbol from
//! each set is found by trying each word where they are few, and by rounds over the sets otherwise.

use crate::candidate::{profile, Evaluation, Pair};
use crate::card::{read_card, Card};
use crate::cull::best_of_positions_by_culling;
use crate::optimizer::{best, best_of_positions, check_ranking, check_work, write_pairs, Method};
use crate::ranking::harmony;
use crate::Refusal;

/// The most words that are tried one by one.
const FEW: usize = 60;

/// The symbols of a set in order.
pub fn symbols(set: u64) -> Vec<u8> {
    (0..64).filter(|symbol| set >> symbol & 1 == 1).collect()
}

/// The words with one symbol from each set.
fn words(sets: &[u64]) -> Vec<Vec<u8>> {
    sets.iter().fold(vec![vec![]], |words, &set| {
        let with = |word: &Vec<u8>| {
            let word = word.clone();
            symbols(set).into_iter().map(move |symbol| [&word[..], &[symbol]].concat()).collect::<Vec<_>>()
        };
        words.iter().flat_map(with).collect()
    })
}

/// The best over all words, by trying each.
pub fn best_by_trying_each(card: &Card, ranking: &[u8], sets: &[u64]) -> Option<Vec<Pair>> {
    let found = words(sets).into_iter().filter_map(|word| best(card, ranking, &word));
    let scored = found.map(|candidate| (profile(&card.machines, &candidate).expect("the best is complete"), candidate));
    let better = |(first, a): &(_, Vec<Pair>), (second, b): &(_, Vec<Pair>)| {
        harmony(ranking, first, second).then(a.len().cmp(&b.len())).then(a.cmp(b))
    };
    scored.min_by(better).map(|(_, candidate)| candidate)
}

/// The best over all words, by rounds over the sets.
pub fn best_of_sets(card: &Card, ranking: &[u8], sets: &[u64]) -> Option<Vec<Pair>> {
    best_of_positions(card, ranking, &sets.iter().map(|&set| symbols(set)).collect::<Vec<_>>())
}

/// The whole call: refusals 1 to 7, 8 for the length alone, 25, 9, 10, 12.
pub fn optimize_sets(
    method: Method,
    card: &[u8],
    ranking: &[u8],
    sets: &[u64],
    work: usize,
    answer: &mut [u8],
) -> Result<Evaluation, Refusal> {
    let card = read_card(card)?;
    check_ranking(&card, ranking)?;
    if sets.len() > 24 {
        return Err(8);
    }
    let too_high = |set: u64| symbols(set).last().map_or(false, |&symbol| symbol > card.symbols);
    if sets.iter().any(|&set| set == 0 || set & 1 == 1 || too_high(set)) {
        return Err(25);
    }
    check_work(&card, sets.len(), work)?;
    let few =
        sets.iter().try_fold(1, |words, set| Some(words * set.count_ones() as usize).filter(|&words| words <= FEW));
    let found = match method {
        Method::Ranked if few.is_some() => best_by_trying_each(&card, ranking, sets),
        Method::Ranked => best_of_sets(&card, ranking, sets),
        Method::Cull => {
            best_of_positions_by_culling(&card, ranking, &sets.iter().map(|&set| symbols(set)).collect::<Vec<_>>())
        }
    };
    let candidate = found.ok_or(10)?;
    let profile = profile(&card.machines, &candidate).expect("the best is complete");
    write_pairs(&candidate, answer)?;
    Ok(Evaluation { profile, pairs: candidate.len(), word_length: sets.len() })
}
