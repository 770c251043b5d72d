//! Weights: the smallest sum, ties by pairs and by bytes, check 26 and its place, and agreement with the ranked engine.

use reference::candidate::profile;
use reference::card::read_card;
use reference::generators::Generator;
use reference::lines::parse;
use reference::optimizer::{best, optimize};
use reference::random::Random;
use reference::samples::{arc, card, card_b, chain_ending, machine, set, CARD_A};
use reference::weights::{
    best_by_culling_sums, best_by_weights, best_by_weights_listed, dominates, optimize_weights, ties, HEAVIEST,
};
use reference::Refusal;

/// Counts, pairs and the sum for a word of card B.
fn answered(weights: [u32; 3], word: &[u8]) -> (Vec<u16>, Vec<u8>, u64) {
    let mut answer = [0; 100];
    let (found, sum) = optimize_weights(&card_b(), weights.as_ref(), word, 2_000, &mut answer).unwrap();
    assert_eq!(found.word_length, word.len());
    (found.profile[..3].to_vec(), answer[..2 * found.pairs].to_vec(), sum)
}

#[test]
fn the_smallest_sum() {
    // onset, insertion, deletion
    assert_eq!(answered([3_000, 2_000, 1_000], &[2]), (vec![0, 0, 1], vec![2, 0], 1_000));
    assert_eq!(answered([3_000, 1_000, 2_000], &[2]), (vec![0, 1, 0], vec![0, 1, 2, 2], 1_000));
    assert_eq!(answered([1_000, 2_000, 3_000], &[2]), (vec![1, 0, 0], vec![2, 2], 1_000));
    // equal sums: fewest pairs, then the smallest byte string
    assert_eq!(answered([1, 1, 1], &[2]), (vec![0, 0, 1], vec![2, 0], 1));
    assert_eq!(answered([0, 0, 0], &[2]), (vec![0, 0, 1], vec![2, 0], 0));
    assert_eq!(answered([0, 0, 0], &[]), (vec![0, 0, 0], vec![], 0));
    // thousandths are told apart
    assert_eq!(answered([1_000, 2_000, 1_001], &[2]), (vec![1, 0, 0], vec![2, 2], 1_000));
}

/// What no ranking gives: the form between two extremes; and one mark of the lighter machine against one of the heavier, but
/// not two.
#[test]
fn ganging_up() {
    let marked = |marks: &[(u8, u8, u16)]| {
        machine(&[true], marks.iter().map(|&(i, o, marks)| arc(0, 0, marks, set([i]), set([o]))).collect())
    };
    let heavy = marked(&[(1, 1, 1), (1, 2, 0), (2, 1, 1), (2, 2, 0), (3, 1, 0), (3, 2, 3), (3, 3, 1)]);
    let light = marked(&[(1, 1, 0), (1, 2, 1), (2, 1, 0), (2, 2, 2), (3, 1, 3), (3, 2, 0), (3, 3, 1)]);
    let bytes = card(3, &[heavy, light]);
    let weighed = |weights: &[u32], word: &[u8]| {
        let mut answer = [0; 2];
        let (found, sum) = optimize_weights(&bytes, weights, word, 100, &mut answer).unwrap();
        (found.profile[0], found.profile[1], sum, answer)
    };
    let ranked = |ranking: &[u8], word: &[u8]| {
        let mut answer = [0; 2];
        optimize(&bytes, ranking, word, 100, &mut answer).unwrap();
        answer
    };
    assert_eq!(weighed(&[1_000, 1_000], &[3]), (1, 1, 2_000, [3, 3]));
    assert_eq!([ranked(&[0, 1], &[3]), ranked(&[1, 0], &[3])], [[3, 1], [3, 2]]);
    assert_eq!(weighed(&[1_500, 1_000], &[1]), (0, 1, 1_000, [1, 2]));
    assert_eq!(weighed(&[1_500, 1_000], &[2]), (1, 0, 1_500, [2, 1]));
    assert_eq!([ranked(&[0, 1], &[1]), ranked(&[0, 1], &[2])], [[1, 2], [2, 2]]);
    assert_eq!([ranked(&[1, 0], &[1]), ranked(&[1, 0], &[2])], [[1, 1], [2, 1]]);
}

#[test]
fn refusal_26() {
    let number = |bytes: &[u8], weights: &[u32], word: &[u8], work| -> Refusal {
        optimize_weights(bytes, weights, word, work, &mut [0; 6_398]).err().unwrap_or(0)
    };
    assert_eq!(number(&card_b(), &[1, 2, 3], &[2], 8), 0);
    assert_eq!(number(&card_b(), &[1, 2, 3], &[2], 7), 9);
    for weights in [&[][..], &[1, 2], &[1, 2, 3, 4], &[1, 2, HEAVIEST + 1], &[u32::MAX, 0, 0]] {
        assert_eq!(number(&card_b(), weights, &[2], 8), 26);
        // in the place of 7: after the card, before word and work
        assert_eq!(number(&card_b(), weights, &[3], 0), 26);
        assert_eq!(number(&[], weights, &[3], 0), 1);
    }
    assert_eq!(number(&card_b(), &[HEAVIEST; 3], &[2], 8), 0);
    assert_eq!(number(&card_b(), &[0; 3], &[3], 0), 8);
    assert_eq!(number(&card_b(), &[0; 3], &[1; 25], 0), 8);
    assert_eq!(number(&CARD_A, &[5], &[2], 4), 10);
    assert_eq!(optimize_weights(&CARD_A, &[5], &[1], 4, &mut [0]).err(), Some(12));
}

/// The largest sums that a card can have.
#[test]
fn the_largest_sum() {
    let mut answer = [0; 6_398];
    let (found, sum) = optimize_weights(&chain_ending(), &[HEAVIEST; 2], &[1; 24], 6_400, &mut answer).unwrap();
    assert_eq!((found.pairs, sum), (3_199, 2 * 48_000 * HEAVIEST as u64));
}

/// Best first, by the cull and, on small cards, by listing.
#[test]
fn by_other_methods() {
    let generator = Generator::default();
    let mut random = Random::new(13);
    let (mut answered, mut listed) = (0, 0);
    for _ in 0..3_000 {
        let (read, _) = generator.card_and_candidate(&mut random);
        let word: Vec<u8> = (0..random.below(3)).map(|_| random.between(1, read.symbols as usize) as u8).collect();
        let highest = random.one_of(&[0, 1, 3, HEAVIEST as usize]);
        let weights: Vec<u32> = read.machines.iter().map(|_| random.between(0, highest) as u32).collect();
        let found = best_by_weights(&read, &weights, &word);
        assert_eq!(found, best_by_culling_sums(&read, &weights, &word));
        answered += found.is_some() as usize;
        let most = (word.len() + 1) * read.states() - 1;
        if most <= 5 && read.symbols <= 4 {
            assert_eq!(found, best_by_weights_listed(&read, &weights, &word, most));
            listed += found.is_some() as usize;
        }
    }
    assert!(answered > 1_000 && listed > 100, "{answered} {listed}");
}

/// Candidates with the same sum: fewest pairs, then the smallest byte string; nothing is said of their profiles.
#[test]
fn ties_by_pairs_and_by_bytes() {
    let read = read_card(&card_b()).unwrap();
    // 2:2 has a mark of the first machine, 2:0 one of the third, 0:1 2:2 one of the second
    for (weights, tied, pairs) in [
        ([1, 1, 1], (true, true), [2, 0]),
        ([1, 2, 1], (false, true), [2, 0]),
        ([1, 1, 2], (true, false), [2, 2]),
        ([2, 2, 1], (false, false), [2, 0]),
    ] {
        assert_eq!(answered(weights, &[2]).1, pairs, "{weights:?}");
        assert_eq!(ties(&read, &weights, &[2]), tied, "{weights:?}");
    }
    // without weights everything is as heavy, also what goes on for ever
    assert_eq!(ties(&read, &[0; 3], &[]), (true, false));
}

/// Where each weight is above c times the sum of those ranked below it, c the largest count in the two profiles, the two
/// engines give the same candidate.
#[test]
fn dominance() {
    let generator = Generator::default();
    let mut random = Random::new(2004);
    let mut agreed = 0;
    for _ in 0..600 {
        let (read, _) = generator.card_and_candidate(&mut random);
        let mut ranking: Vec<u8> = (0..read.machines.len() as u8).collect();
        random.shuffle(&mut ranking);
        let word: Vec<u8> = (0..random.below(4)).map(|_| random.between(1, read.symbols as usize) as u8).collect();
        let ranked = match best(&read, &ranking, &word) {
            Some(ranked) => ranked,
            None => continue,
        };
        let scale = random.between(2, 40) as u64;
        let mut weights = vec![0; read.machines.len()];
        let mut below = 0;
        for &machine in ranking.iter().rev() {
            let weight = (scale * below + 1).min(HEAVIEST as u64);
            weights[machine as usize] = weight as u32;
            below += weight;
        }
        let weighed = best_by_weights(&read, &weights, &word).unwrap();
        let counts = |candidate: &[(u8, u8)]| profile(&read.machines, candidate).unwrap();
        let most = counts(&ranked).into_iter().chain(counts(&weighed)).max().unwrap();
        if dominates(&weights, &ranking, most) {
            assert_eq!(weighed, ranked);
            agreed += 1;
        }
    }
    assert!(agreed > 100, "{agreed}");
}

/// A weight of just c times those below is not enough, and neither is one of 0.
#[test]
fn without_dominance() {
    // 1:1 has one mark of the first machine, 1:2 two of the second
    let one = machine(&[true], vec![arc(0, 0, 1, set([1]), set([1])), arc(0, 0, 0, set([1]), set([2]))]);
    let other = machine(&[true], vec![arc(0, 0, 0, set([1]), set([1])), arc(0, 0, 2, set([1]), set([2]))]);
    let read = read_card(&card(2, &[one, other])).unwrap();
    assert_eq!(best(&read, &[0, 1], &[1]), Some(vec![(1, 2)]));
    for (weights, enough, pair) in
        [([2, 1], false, (1, 1)), ([3, 1], true, (1, 2)), ([0, 0], false, (1, 1)), ([1, 0], false, (1, 2))]
    {
        assert_eq!(dominates(&weights, &[0, 1], 2), enough);
        assert_eq!(best_by_weights(&read, &weights, &[1]), Some(vec![pair]));
    }
    // where no count is above 0 the weights need only be above 0
    assert!(dominates(&[1, 1], &[0, 1], 0) && !dominates(&[1, 0], &[0, 1], 0));
}

/// The examples of the ranked engine, by weights far apart.
#[test]
fn as_the_ranked_engine() {
    for (line, weights) in [("012 2", [100, 10, 1]), ("021 2", [100, 1, 10]), ("120 2", [1, 100, 10])] {
        let (ranking, word) = parse(line.as_bytes()).unwrap();
        let [mut one, mut other] = [[0; 8]; 2];
        let ranked = optimize(&card_b(), &ranking, &word, 100, &mut one).unwrap();
        let weighed = optimize_weights(&card_b(), weights.as_ref(), &word, 100, &mut other).unwrap().0;
        assert_eq!((weighed, other), (ranked, one));
    }
}
