//! Cards whose machines, joined, have about as many states or arcs as a machine may have.

use crate::card::{read_card, Arc, Card, Machine};
use crate::random::Random;
use crate::samples::{self, arc, set};

/// A machine of so many states with an arc from each that takes every pair.
fn wide(random: &mut Random, symbols: u8, states: usize) -> Machine {
    let all = set(0..=symbols);
    let arcs = (0..states).map(|from| arc(from, random.below(states), 0, all, all)).collect();
    Machine { endings: vec![Some(0); states], arcs }
}

/// A machine of so many states and arcs, of one pair each.
fn narrow(random: &mut Random, symbols: u8, states: usize, arcs: usize) -> Machine {
    let pair = |place: usize| {
        let number = place / states;
        let (input, output) = (1 + number / symbols as usize, 1 + number % symbols as usize);
        (set([input as u8]), set([output as u8]))
    };
    let mut arcs: Vec<Arc> = (0..arcs)
        .map(|place| {
            let (inputs, outputs) = pair(place);
            arc(place % states, random.below(states), random.one_of(&[0, 1, 15]), inputs, outputs)
        })
        .collect();
    random.shuffle(&mut arcs);
    Machine { endings: (0..states).map(|_| random.percent(80).then_some(0)).collect(), arcs }
}

/// A card of two machines: one of so many states and arcs of one pair each, one of `others` states whose arcs take every pair;
/// joined they have `states` × `others` states and `arcs` × `others` arcs.
pub fn two_machines(random: &mut Random, symbols: u8, states: usize, arcs: usize, others: usize) -> Card {
    let mut machines = vec![narrow(random, symbols, states, arcs), wide(random, symbols, others)];
    random.shuffle(&mut machines);
    read_card(&samples::card(symbols, &machines)).expect("a card that is accepted")
}

/// Two machines that, joined, have 254 to 256 arcs, or 31 to 33 states.
pub fn joined_at_the_limits(random: &mut Random) -> Card {
    let symbols = random.between(16, 63) as u8;
    let (states, arcs, others) = match random.below(6) {
        0 | 1 => random.one_of(&[(1, 255, 1), (1, 51, 5), (2, 85, 3), (1, 17, 15), (5, 51, 5), (1, 15, 17)]),
        2 => random.one_of(&[(1, 64, 4), (2, 32, 8), (1, 16, 16), (4, 128, 2)]),
        3 => random.one_of(&[(1, 254, 1), (2, 127, 2)]),
        _ => random.one_of(&[(4, 9, 8), (16, 0, 2), (1, 3, 32), (31, 31, 1), (3, 7, 11), (11, 11, 3)]),
    };
    two_machines(random, symbols, states, arcs, others)
}
