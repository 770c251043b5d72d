//! The best candidate passes no node twice: so many pairs, and so many marks, and no more.

use reference::card::read_card;
use reference::cull::best_by_culling;
use reference::generators::Generator;
use reference::optimizer::{best, optimize_by, Method};
use reference::random::Random;
use reference::samples::{chain, chain_before, chain_behind, chain_ending, chain_full};
use std::collections::BTreeSet;

#[test]
fn no_node_twice() {
    let generator = Generator::default();
    let mut random = Random::new(48_000);
    let mut most = 0;
    for _ in 0..2_000 {
        let (card, _) = generator.card_and_candidate(&mut random);
        let ranking: Vec<u8> = (0..card.machines.len() as u8).rev().collect();
        let word: Vec<u8> = (0..random.below(5)).map(|_| random.between(1, card.symbols as usize) as u8).collect();
        for candidate in [best(&card, &ranking, &word), best_by_culling(&card, &ranking, &word)].into_iter().flatten() {
            let mut states = vec![0; card.machines.len()];
            let (mut position, mut passed) = (0, BTreeSet::new());
            passed.insert((position, states.clone()));
            for &(input, output) in &candidate {
                for (state, machine) in states.iter_mut().zip(&card.machines) {
                    *state = machine.step(*state, input, output).expect("a complete candidate").0;
                }
                position += (input != 0) as usize;
                assert!(passed.insert((position, states.clone())), "{candidate:?}");
            }
            assert!(candidate.len() < (word.len() + 1) * card.states());
            most = most.max(candidate.len());
        }
    }
    assert!(most > 20, "{most} pairs");
}

/// The cards with the most pairs, and with the most marks.
#[test]
fn the_most() {
    let chains = [(chain(), 47_985), (chain_behind(), 47_985), (chain_ending(), 48_000), (chain_full(), 47_985)];
    for (card, counts) in chains {
        let machines = read_card(&card).unwrap().machines.len();
        let ranking: Vec<u8> = (0..machines as u8).collect();
        let found = optimize_by(Method::Ranked, &card, &ranking, &[3; 24], 25_600, &mut [0; 6_398]).unwrap();
        assert_eq!(found.pairs, 3_199);
        assert!(found.profile[..machines].iter().all(|&count| count == counts));
    }
}

/// The chains in the order of the codes: an insertion leads from a joint state to the one behind it, or to the one before it,
/// and nowhere else, and the best passes every joint state at each position but the first.
#[test]
fn chains_by_codes() {
    for (card, to, pairs) in [(chain_behind(), 1, 3_199), (chain_before(), -1, 24 * 128)] {
        let read = read_card(&card).unwrap();
        assert_eq!(read.states(), 128);
        let (front, back) = match &read.machines[..] {
            [front, back] => (front, back),
            _ => panic!("two machines"),
        };
        let states = back.endings.len();
        for code in 0..128 {
            let step = |output| {
                let (front, _) = front.step(code / states, 0, output)?;
                let (back, _) = back.step(code % states, 0, output)?;
                Some(front * states + back)
            };
            let reached: BTreeSet<usize> = (1..=read.symbols).filter_map(step).collect();
            let next = usize::try_from(code as i64 + to).ok().filter(|&next| next < 128);
            assert_eq!(reached, next.into_iter().collect());
        }
        let word: Vec<u8> = [1, 2, 3].repeat(8);
        assert_eq!(best(&read, &[0, 1], &word).unwrap().len(), pairs);
    }
}
