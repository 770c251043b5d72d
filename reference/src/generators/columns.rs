//! Cards with outputs alike, or nearly. For one input an output has a column of steps, one for each state of each machine: an
//! engine may leave out an output whose column is that of a lesser one, or that some machine takes from no state, and no other.

use super::cards::{card_of, clash};
use crate::card::{Arc, Card, Machine};
use crate::random::Random;

/// The machine with other outputs of its arcs; those that are left with none, or clash, go.
fn with_outputs(machine: &Machine, change: impl Fn(u64) -> u64) -> Machine {
    let mut arcs: Vec<Arc> = Vec::new();
    for arc in &machine.arcs {
        let next = Arc { outputs: change(arc.outputs), ..arc.clone() };
        if next.outputs != 0 && !arcs.iter().any(|old| clash(old, &next)) {
            arcs.push(next);
        }
    }
    Machine { endings: machine.endings.clone(), arcs }
}

/// The machine with the greater output in those sets alone that have the lesser.
fn likened(machine: &Machine, lesser: u8, greater: u8) -> Machine {
    with_outputs(machine, |outputs| outputs & !(1 << greater) | (outputs >> lesser & 1) << greater)
}

/// The machine, in which each set has both outputs or neither, with some arcs split that have both: the greater one leads
/// elsewhere, has other marks, or is not taken.
fn told_apart(random: &mut Random, machine: &Machine, lesser: u8, greater: u8) -> Machine {
    let mut made = machine.clone();
    for place in 0..made.arcs.len() {
        if made.arcs[place].outputs >> lesser & 1 == 0 || made.arcs.len() == 255 || random.percent(30) {
            continue;
        }
        made.arcs[place].outputs &= !(1 << greater);
        let mut split = Arc { outputs: 1 << greater, ..made.arcs[place].clone() };
        match random.below(8) {
            0 => continue,
            1 | 2 => split.to = random.below(made.endings.len()),
            3 | 4 => split.marks = random.below(16) as u16,
            // the greater one is the better
            _ => made.arcs[place].marks = (split.marks + 1).min(15),
        }
        made.arcs.push(split);
    }
    made
}

/// The card with some outputs that no arc tells apart, that the last machine alone tells apart, or that one machine takes
/// from no state.
pub fn with_columns(random: &mut Random, card: &Card) -> Card {
    let mut machines = card.machines.clone();
    let last = machines.len() - 1;
    let (kind, most) = (random.below(3), random.one_of(&[1, 1, 2, 8]));
    for _ in 0..most {
        let greater = random.between(1, card.symbols as usize) as u8;
        // the empty symbol is an output too
        let least = if greater > 1 && random.percent(80) { 1 } else { 0 };
        let lesser = random.between(least, greater as usize - 1) as u8;
        match kind {
            0 => machines.iter_mut().for_each(|machine| *machine = likened(machine, lesser, greater)),
            1 => {
                machines.iter_mut().for_each(|machine| *machine = likened(machine, lesser, greater));
                machines[last] = told_apart(random, &machines[last], lesser, greater);
            }
            _ => {
                let place = random.below(machines.len());
                machines[place] = with_outputs(&machines[place], |outputs| outputs & !(1 << greater));
            }
        }
    }
    card_of(card.symbols, machines)
}
