//! Words with sets of symbols: the best over all words with one symbol from each set, check 25 and its place.

use reference::card::read_card;
use reference::generators::Generator;
use reference::optimizer::{optimize_by, Method};
use reference::random::Random;
use reference::samples::{arc, card, card_b, full, machine, set, CARD_A};
use reference::sets::{best_by_trying_each, best_of_sets, optimize_sets};
use reference::{candidate::Evaluation, Refusal};

const BOTH: [Method; 2] = [Method::Ranked, Method::Cull];

/// Counts and pairs, the same from both engines.
fn answered(bytes: &[u8], ranking: &[u8], sets: &[u64]) -> Result<(Vec<u16>, Vec<u8>), Refusal> {
    let [first, second] = BOTH.map(|method| {
        let mut answer = [0; 100];
        let found = optimize_sets(method, bytes, ranking, sets, 25_600, &mut answer)?;
        assert_eq!(found.word_length, sets.len());
        Ok((found.profile[..ranking.len()].to_vec(), answer[..2 * found.pairs].to_vec()))
    });
    assert_eq!(first, second);
    first
}

#[test]
fn sets_that_decide() {
    // card A takes 1 and not 2
    assert_eq!(answered(&CARD_A, &[0], &[set([1, 2])]), Ok((vec![0], vec![1, 1])));
    assert_eq!(answered(&CARD_A, &[0], &[set([2])]), Err(10));
    // the vowel costs, the consonant does not
    assert_eq!(answered(&card_b(), &[0, 1, 2], &[set([1, 2])]), Ok((vec![0, 0, 0], vec![1, 1])));
    assert_eq!(answered(&card_b(), &[0, 1, 2], &[set([2])]), Ok((vec![0, 0, 1], vec![2, 0])));
    // a word that is not the first: 1 has a mark
    let dear = card(2, &[machine(&[true], vec![arc(0, 0, 1, set([1]), set([1])), arc(0, 0, 0, set([2]), set([1]))])]);
    assert_eq!(answered(&dear, &[0], &[set([1, 2]), set([1]), set([1, 2])]), Ok((vec![1], vec![2, 1, 1, 1, 2, 1])));
    // a tie between two words: the smaller byte string, in before out
    let tie = card(2, &[machine(&[true], vec![arc(0, 0, 0, set([1]), set([2])), arc(0, 0, 0, set([2]), set([1]))])]);
    assert_eq!(answered(&tie, &[0], &[set([1, 2])]), Ok((vec![0], vec![1, 2])));
    // fewer pairs come before the smaller string: 1 needs an insertion
    let arcs =
        vec![arc(0, 1, 0, set([1]), set([1])), arc(1, 2, 0, set([0]), set([1])), arc(0, 2, 0, set([2]), set([2]))];
    let longer = card(2, &[machine(&[false, false, true], arcs)]);
    assert_eq!(answered(&longer, &[0], &[set([1, 2])]), Ok((vec![0], vec![2, 2])));
    // no positions
    assert_eq!(answered(&card_b(), &[0, 1, 2], &[]), Ok((vec![0, 0, 0], vec![])));
}

#[test]
fn refusal_25() {
    let number = |bytes: &[u8], ranking: &[u8], sets: &[u64], work| {
        let [first, second] =
            BOTH.map(|method| optimize_sets(method, bytes, ranking, sets, work, &mut [0; 6_398]).err().unwrap_or(0));
        assert_eq!(first, second);
        first
    };
    let good = set([1, 2]);
    assert_eq!(number(&card_b(), &[0, 1, 2], &[good], 32), 0);
    for bad in [0, set([0]), set([0, 1]), set([1, 3]), set([3]), 1 << 63] {
        assert_eq!(number(&card_b(), &[0, 1, 2], &[bad], 32), 25);
        assert_eq!(number(&card_b(), &[0, 1, 2], &[good, bad], 48), 25);
        // after 8's length limit, before 9
        assert_eq!(number(&card_b(), &[0, 1, 2], &[bad], 0), 25);
        assert_eq!(number(&card_b(), &[0, 1, 2], &[bad; 25], 0), 8);
        assert_eq!(number(&card_b(), &[0, 1, 1], &[bad], 0), 7);
        assert_eq!(number(&[], &[0, 1, 2], &[bad], 0), 1);
    }
    assert_eq!(number(&card_b(), &[0, 1, 2], &[good], 31), 9);
    assert_eq!(number(&card_b(), &[0, 1, 2], &[good; 24], 400), 0);
    assert_eq!(number(&card_b(), &[0, 1, 2], &[good; 25], 25_600), 8);
    // every symbol that there is
    assert_eq!(number(&full(), &[0, 1, 2, 3, 4, 5], &[u64::MAX - 1], 25_600), 0);
}

/// Sets of one symbol give the ordinary call's answer.
#[test]
fn sets_of_one_symbol() {
    let generator = Generator::default();
    let mut random = Random::new(25);
    for _ in 0..300 {
        let (read, _) = generator.card_and_candidate(&mut random);
        let bytes = card(read.symbols, &read.machines);
        let ranking: Vec<u8> = (0..read.machines.len() as u8).collect();
        let word: Vec<u8> = (0..random.below(6)).map(|_| random.between(1, read.symbols as usize) as u8).collect();
        let sets: Vec<u64> = word.iter().map(|&symbol| set([symbol])).collect();
        for method in BOTH {
            let [mut one, mut other] = [[7; 300]; 2];
            let ordinary: Result<Evaluation, Refusal> = optimize_by(method, &bytes, &ranking, &word, 25_600, &mut one);
            assert_eq!(optimize_sets(method, &bytes, &ranking, &sets, 25_600, &mut other), ordinary);
            assert_eq!(one, other);
        }
    }
}

/// By rounds over the sets, and by trying each word.
#[test]
fn each_word() {
    let generator = Generator::default();
    let mut random = Random::new(11);
    let mut answered = 0;
    for _ in 0..400 {
        let (read, _) = generator.card_and_candidate(&mut random);
        if read.states() > 40 {
            continue;
        }
        let ranking: Vec<u8> = (0..read.machines.len() as u8).rev().collect();
        let mut any = || set((0..3).map(|_| random.between(1, read.symbols as usize) as u8).collect::<Vec<_>>());
        let sets = [any(), any(), any()];
        let found = best_by_trying_each(&read, &ranking, &sets);
        assert_eq!(best_of_sets(&read, &ranking, &sets), found);
        answered += found.is_some() as usize;
    }
    assert!(answered > 150, "{answered}");
    let read = read_card(&card_b()).unwrap();
    for sets in [[6, 6, 6], [2, 6, 4], [6, 4, 6]] {
        assert_eq!(best_of_sets(&read, &[0, 2, 1], &sets), best_by_trying_each(&read, &[0, 2, 1], &sets));
    }
}
