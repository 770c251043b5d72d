//! The optimizer by rounds against the list of all candidates, on small cards made by chance.

use reference::card::{lay_out, read_card, read_machine, Card, Machine};
use reference::cull::best_by_culling;
use reference::optimizer::{best, best_by_listing, optimize};
use reference::random::Random;
use reference::samples::arc;

/// A card of one to three machines, one or two symbols and at most four joined states.
fn small_card(random: &mut Random) -> Card {
    let symbols = 1 + random.below(2) as u8;
    let sets = (1 << (symbols + 1)) - 1;
    let mut room = 4;
    let parts: Vec<Vec<u8>> = (0..1 + random.below(3))
        .map(|_| {
            let states = 1 + random.below(room.min(3));
            room /= states;
            let endings = (0..states).map(|_| random.one_of(&[None, Some(0), Some(0), Some(1), Some(2)])).collect();
            let mut made = Machine { endings, arcs: vec![] };
            for _ in 0..2 + random.below(8 * states) {
                let (from, to, marks) = (random.below(states), random.below(states), random.below(3) as u16);
                made.arcs.push(arc(from, to, marks, 1 + random.below(sets) as u64, 1 + random.below(sets) as u64));
                if read_machine(&made.part(), symbols).is_err() {
                    made.arcs.pop(); // it clashes
                }
            }
            made.part()
        })
        .collect();
    read_card(&lay_out(symbols, &parts)).expect("a card that is accepted")
}

#[test]
fn rounds_and_listing_agree() {
    let mut random = Random::new(2004);
    let (mut answered, mut inserted_last, mut longer, mut deleted) = (0, 0, 0, 0);
    for _ in 0..4000 {
        let card = small_card(&mut random);
        let word: Vec<u8> = (0..random.below(4)).map(|_| 1 + random.below(card.symbols as usize) as u8).collect();
        let mut ranking: Vec<u8> = (0..card.machines.len() as u8).collect();
        random.shuffle(&mut ranking);
        // the best passes no node twice
        let most = (word.len() + 1) * card.states() - 1;
        if most > 9 {
            continue;
        }
        let found = best(&card, &ranking, &word);
        assert_eq!(found, best_by_listing(&card, &ranking, &word, most), "{card:?} {ranking:?} {word:?}");
        assert_eq!(found, best_by_listing(&card, &ranking, &word, most + 1));
        assert_eq!(found, best_by_culling(&card, &ranking, &word));
        if let Some(candidate) = found {
            answered += 1;
            inserted_last += candidate.last().map_or(false, |pair| pair.0 == 0) as usize;
            longer += (candidate.len() > word.len()) as usize;
            deleted += candidate.iter().any(|pair| pair.1 == 0) as usize;
        }
    }
    println!(
        "{answered} answered, {inserted_last} end in an insertion, {longer} are longer than the word, {deleted} delete"
    );
    // the comparison meets every kind of answer
    assert!(answered > 1000 && inserted_last > 40 && longer > 150 && deleted > 500);
}

#[test]
fn the_answer_slice_holds_the_best() {
    let mut random = Random::new(1998);
    for _ in 0..200 {
        let card = small_card(&mut random);
        let ranking: Vec<u8> = (0..card.machines.len() as u8).collect();
        let bytes = lay_out(card.symbols, &card.machines.iter().map(|m| m.part()).collect::<Vec<_>>());
        let mut answer = [77; 64];
        match (optimize(&bytes, &ranking, &[1], 1_000, &mut answer), best(&card, &ranking, &[1])) {
            (Ok(found), Some(candidate)) => {
                let pairs: Vec<(u8, u8)> = answer.chunks(2).map(|pair| (pair[0], pair[1])).collect();
                assert_eq!(pairs[..found.pairs], candidate);
                assert!(answer[2 * found.pairs..].iter().all(|&byte| byte == 77));
            }
            (result, none) => {
                assert_eq!((result, none), (Err(10), None));
                assert_eq!(answer, [77; 64]);
            }
        }
    }
}
