//! The cull: after each constraint the ways left from a node to an end are exactly those that no other way from there beats
//! on the constraints gone down so far; and its best is that of the optimizer by rounds.

use reference::card::{read_card, Card, Machine};
use reference::cull::{best_by_culling, Graph};
use reference::generators::Generator;
use reference::lines::parse;
use reference::optimizer::{best, optimize_by, Method};
use reference::random::Random;
use reference::samples::{arc, card, card_b, card_b_ending, chain, chain_ending, full, machine, none, set, shortcuts};
use reference::Profile;

/// Every way of at most so many pairs from a node to an end: the edges by their places in a graph that holds all ways, and
/// its marks.
fn ways(graph: &Graph, node: usize, most: usize) -> Vec<(Vec<(usize, u8, u8)>, Profile)> {
    let mut found: Vec<(Vec<(usize, u8, u8)>, Profile)> =
        graph.endings[node].map(|marks| (vec![], marks)).into_iter().collect();
    if most > 0 {
        for edge in &graph.edges[node] {
            for (rest, marks) in ways(graph, edge.to, most - 1) {
                let mut way = vec![(edge.to, edge.pair.0, edge.pair.1)];
                way.extend(rest);
                found.push((way, std::array::from_fn(|machine| edge.marks[machine] + marks[machine])));
            }
        }
    }
    found
}

/// A card of two machines, one symbol and at most four joined states.
fn small_card(random: &mut Random) -> Card {
    let machines: Vec<Machine> = (0..2)
        .map(|_| {
            let states = random.between(1, 2);
            let mut arcs = Vec::new();
            for from in 0..states {
                for (inputs, outputs) in [(set([0]), set([1])), (set([1]), set([0])), (set([1]), set([1]))] {
                    if random.percent(85) {
                        arcs.push(arc(from, random.below(states), random.below(3) as u16, inputs, outputs));
                    }
                }
            }
            let endings = (0..states).map(|_| random.one_of(&[None, Some(0), Some(0), Some(1)])).collect();
            Machine { endings, arcs }
        })
        .collect();
    read_card(&card(1, &machines)).expect("a card that is accepted")
}

#[test]
fn the_ways_left() {
    let mut random = Random::new(1994);
    let (mut kept, mut dropped) = (0, 0);
    for _ in 0..300 {
        let read = small_card(&mut random);
        let word = vec![1; random.below(2)];
        let ranking = random.one_of(&[[0usize, 1], [1, 0]]);
        let all = Graph::new(&read, &word);
        // a least way passes no node twice; longer ones have loops
        let most = all.edges.len() + 1;
        let mut left = all.clone();
        for gone_down in 1..=2 {
            left.cull(ranking[gone_down - 1]);
            for node in 0..all.edges.len() {
                let marks = |profile: &Profile| {
                    ranking[..gone_down].iter().map(|&machine| profile[machine]).collect::<Vec<_>>()
                };
                let every = ways(&all, node, most.min(6));
                let least = ways(&all, node, most.min(8)).iter().map(|(_, profile)| marks(profile)).min();
                let unbeaten: Vec<_> = every.iter().filter(|(_, profile)| Some(marks(profile)) == least).collect();
                assert_eq!(ways(&left, node, most.min(6)).iter().collect::<Vec<_>>(), unbeaten);
                kept += unbeaten.len();
                dropped += every.len() - unbeaten.len();
            }
        }
    }
    assert!(kept > 1_000 && dropped > 1_000, "{kept} kept, {dropped} dropped");
}

#[test]
fn the_same_best() {
    // every short word of card B, with ending marks and without
    for bytes in [card_b(), card_b_ending()] {
        let read = read_card(&bytes).unwrap();
        for ranking in ["012", "021", "102", "120", "201", "210"] {
            for word in ["", "1", "2", "1,1", "1,2", "2,1", "2,2", "2,2,2", "1,2,2,1"] {
                let (ranking, word) = parse(format!("{ranking} {word}").as_bytes()).unwrap();
                assert_eq!(best_by_culling(&read, &ranking, &word), best(&read, &ranking, &word));
            }
        }
    }
    // the worst cards
    for bytes in [chain(), chain_ending(), shortcuts(), full(), none()] {
        let read = read_card(&bytes).unwrap();
        let ranking: Vec<u8> = (0..read.machines.len() as u8).rev().collect();
        for word in [vec![], vec![1; 3], (0..24).map(|place| 1 + place % 3).collect()] {
            assert_eq!(best_by_culling(&read, &ranking, &word), best(&read, &ranking, &word));
        }
    }
    let generator = Generator::default();
    let mut random = Random::new(1999);
    for _ in 0..500 {
        let (read, _) = generator.card_and_candidate(&mut random);
        let ranking: Vec<u8> = (0..read.machines.len() as u8).collect();
        let word = vec![1; random.below(6)];
        assert_eq!(best_by_culling(&read, &ranking, &word), best(&read, &ranking, &word));
    }
}

#[test]
fn loops_of_free_insertions() {
    let free =
        card(1, &[machine(&[true], vec![arc(0, 0, 0, set([0]), set([1])), arc(0, 0, 0, set([1]), set([0, 1]))])]);
    let read = read_card(&free).unwrap();
    assert_eq!(best_by_culling(&read, &[0], &[1]), Some(vec![(1, 0)]));
    assert_eq!(best_by_culling(&read, &[0], &[]), Some(vec![]));
    // the loop stays among the ways left
    let mut graph = Graph::new(&read, &[1]);
    graph.cull(0);
    assert_eq!(graph.edges[0].len(), 3);
}

/// Result, refusals and slice of the whole call.
#[test]
fn the_call() {
    for (ranking, word, work, room) in [
        (&[0, 1, 2][..], &[2][..], 32, 2),
        (&[0, 2, 1], &[2], 32, 5),
        (&[0, 2, 1], &[2], 32, 3),
        (&[0, 2, 1], &[2], 31, 4),
        (&[0, 1, 1], &[2], 32, 4),
        (&[0, 1, 2], &[3], 32, 4),
        (&[0, 1, 2], &[], 16, 0),
    ] {
        let [mut first, mut second] = [vec![7; room], vec![7; room]];
        assert_eq!(
            optimize_by(Method::Ranked, &card_b(), ranking, word, work, &mut first),
            optimize_by(Method::Cull, &card_b(), ranking, word, work, &mut second)
        );
        assert_eq!(first, second);
    }
}
