//! Cards by chance that are accepted: every machine count, every P to 128, every S to 63, arcs that do not clash.

use crate::card::{share_a_pair, Arc, Card, Machine};
use crate::random::Random;
use crate::samples::{arc, machine, set, shared_out};

/// What a card's machines have in common.
#[derive(Clone, Copy)]
struct Style {
    /// How many of a hundred blocks of pairs get an arc.
    density: usize,
    /// How many of a hundred arcs have marks, and the most that they have.
    marked: usize,
    most_marks: usize,
    targets: Targets,
    finals: Finals,
    /// How many of a hundred final states have ending marks, and the most that they have.
    ending: usize,
    most_ending_marks: usize,
    /// How many of a hundred blocks of pairs are split by kind.
    kinds: usize,
}

#[derive(Clone, Copy)]
enum Targets {
    Any,
    Same,
    Next,
}

#[derive(Clone, Copy)]
enum Finals {
    All,
    Some,
    Last,
}

impl Style {
    fn by_chance(random: &mut Random) -> Style {
        let (marked, most_marks) = random.one_of(&[(0, 0), (10, 1), (50, 1), (50, 3), (90, 15), (100, 15)]);
        let (ending, most_ending_marks) = random.one_of(&[(0, 0), (0, 0), (40, 1), (60, 3), (90, 15)]);
        Style {
            density: random.one_of(&[100, 100, 100, 95, 80, 50]),
            marked,
            most_marks,
            targets: random.one_of(&[Targets::Any, Targets::Any, Targets::Same, Targets::Next]),
            finals: random.one_of(&[Finals::All, Finals::All, Finals::Some, Finals::Last]),
            ending,
            most_ending_marks,
            kinds: random.one_of(&[0, 0, 30, 100]),
        }
    }

    fn marks(&self, random: &mut Random) -> u16 {
        if random.percent(self.marked) {
            random.between(1, self.most_marks) as u16
        } else {
            0
        }
    }

    fn target(&self, random: &mut Random, from: usize, states: usize) -> usize {
        match self.targets {
            Targets::Same if random.percent(80) => from,
            Targets::Next if random.percent(80) => (from + 1) % states,
            _ => random.below(states),
        }
    }

    fn endings(&self, random: &mut Random, states: usize) -> Vec<Option<u16>> {
        let ending = |state: usize| {
            let is_final = match self.finals {
                Finals::All => true,
                Finals::Some => random.percent(60),
                Finals::Last => state == states - 1,
            };
            is_final.then(|| match random.percent(self.ending) {
                true => random.between(1, self.most_ending_marks) as u16,
                false => 0,
            })
        };
        (0..states).map(ending).collect()
    }
}

/// Whether two arcs of a state take one pair.
pub fn clash(first: &Arc, second: &Arc) -> bool {
    first.from == second.from && share_a_pair(first, second)
}

/// At most so many blocks of pairs, inputs times outputs, no pair in two of them.
fn blocks(random: &mut Random, symbols: u8, most: usize) -> Vec<(u64, u64)> {
    let all = symbols as usize;
    let few = random.one_of(&[1, 2, 3, 8, 64]);
    let mut blocks = Vec::new();
    if random.percent(70) {
        // insertions apart from the pairs that read a symbol
        let inserting = if random.percent(15) { 0 } else { random.between(1, all.min(most / 2).min(few)) };
        let rest = most - inserting;
        let reading = random.between(1, all.min(rest).min(few));
        let writing = random.between(1, (all + 1).min(rest / reading).min(few));
        let outputs = shared_out(random, 1..symbols + 1, inserting);
        blocks.extend(outputs.into_iter().map(|outputs| (1, outputs)));
        for inputs in shared_out(random, 1..symbols + 1, reading) {
            blocks.extend(shared_out(random, 0..symbols + 1, writing).into_iter().map(|outputs| (inputs, outputs)));
        }
    } else {
        let reading = random.between(1, (all + 1).min(most).min(few));
        let writing = random.between(1, (all + 1).min(most / reading).min(few));
        for inputs in shared_out(random, 0..symbols + 1, reading) {
            blocks.extend(shared_out(random, 0..symbols + 1, writing).into_iter().map(|outputs| (inputs, outputs)));
        }
    }
    // 0:0 may be in several blocks
    for (inputs, outputs) in &mut blocks {
        if *inputs == 1 && random.percent(20) {
            *outputs |= 1;
        } else if *outputs == 1 && random.percent(20) {
            *inputs |= 1;
        }
    }
    while blocks.len() < most && random.percent(5) {
        blocks.push((1, 1));
    }
    blocks
}

/// Each state's pairs shared out among its arcs.
fn shared_machine(random: &mut Random, symbols: u8, states: usize, style: &Style) -> Machine {
    let mut arcs = Vec::new();
    for from in 0..states {
        // a block that is split by kind needs room for two arcs
        let most = 255 / states / if style.kinds > 0 { 2 } else { 1 };
        for (inputs, outputs) in blocks(random, symbols, most) {
            let kinds: &[u8] = if random.percent(style.kinds) { &[1, 2] } else { &[0] };
            for &kind in kinds {
                if random.percent(style.density) {
                    let (to, marks) = (style.target(random, from, states), style.marks(random));
                    arcs.push(Arc { kind, ..arc(from, to, marks, inputs, outputs) });
                }
            }
        }
    }
    random.shuffle(&mut arcs);
    Machine { endings: style.endings(random, states), arcs }
}

/// A set that is not empty, by chance.
fn any_set(random: &mut Random, symbols: u8) -> u64 {
    let all = set(0..symbols + 1);
    match random.below(6) {
        0 => all,
        1 => all & !1,
        2 => 1,
        3 => 1 << random.between(0, symbols as usize),
        _ => Some(random.number() & random.number() & all).filter(|&some| some != 0).unwrap_or(all),
    }
}

/// Arcs with sets by chance, those that clash left out.
fn loose_machine(random: &mut Random, symbols: u8, states: usize, style: &Style) -> Machine {
    let mut arcs: Vec<Arc> = Vec::new();
    for _ in 0..random.between(1, 12 * states) {
        let from = random.below(states);
        let (inputs, outputs) = (any_set(random, symbols), any_set(random, symbols));
        let (to, marks) = (style.target(random, from, states), style.marks(random));
        let next = Arc { kind: random.one_of(&[0, 0, 1, 2]), ..arc(from, to, marks, inputs, outputs) };
        if arcs.len() < 255 && !arcs.iter().any(|old| clash(old, &next)) {
            arcs.push(next);
        }
    }
    Machine { endings: style.endings(random, states), arcs }
}

/// Insertions lead from the first state to the last, and only there a symbol of the word is taken: long candidates.
fn counting_machine(random: &mut Random, symbols: u8, states: usize, style: &Style) -> Machine {
    let (empty, segments) = (set([0]), set(1..symbols + 1));
    let last = states - 1;
    let mut arcs: Vec<Arc> =
        (0..last).map(|state| arc(state, state + 1, style.marks(random), empty, segments)).collect();
    let back = random.below(states);
    arcs.push(arc(last, back, style.marks(random), segments, segments | 1));
    machine(&(0..states).map(|state| state == last).collect::<Vec<_>>(), arcs)
}

/// A machine of faithfulness in every state: unlike pairs, insertions and deletions have marks of their own.
fn faithful_machine(random: &mut Random, symbols: u8, states: usize, style: &Style) -> Machine {
    let (empty, segments) = (set([0]), set(1..symbols + 1));
    let [unlike, inserted, deleted] = [(); 3].map(|_| style.marks(random));
    let mut arcs = Vec::new();
    for from in 0..states {
        let by_kinds = random.percent(style.kinds);
        let mut add_kind = |kind, marks, inputs, outputs| {
            arcs.push(Arc { kind, ..arc(from, style.target(random, from, states), marks, inputs, outputs) });
        };
        if by_kinds {
            add_kind(1, 0, segments, segments);
            add_kind(2, unlike, segments, segments);
            add_kind(2, inserted, empty, segments);
            add_kind(2, deleted, segments, empty);
            continue;
        }
        let mut add = |marks, inputs, outputs| add_kind(0, marks, inputs, outputs);
        add(inserted, empty, segments);
        add(deleted, segments, empty);
        // as many symbols as there is room for are told apart
        let apart = (symbols as usize).min((255 / states - 3) / 2) as u8;
        for symbol in 1..=apart {
            add(0, set([symbol]), set([symbol]));
            if symbols > 1 {
                add(unlike, set([symbol]), segments & !set([symbol]));
            }
        }
        if apart < symbols {
            add(unlike, set(apart + 1..symbols + 1), segments);
        }
    }
    Machine { endings: style.endings(random, states), arcs }
}

/// A machine that takes every pair and changes no state.
fn open_machine(random: &mut Random, symbols: u8, states: usize, style: &Style) -> Machine {
    let all = set(0..symbols + 1);
    let arcs = (0..states).map(|state| arc(state, state, style.marks(random), all, all)).collect();
    machine(&vec![true; states], arcs)
}

fn any_machine(random: &mut Random, symbols: u8, states: usize, style: &Style) -> Machine {
    match random.below(20) {
        0..=10 => shared_machine(random, symbols, states, style),
        11 => loose_machine(random, symbols, states, style),
        12..=13 => counting_machine(random, symbols, states, style),
        14..=16 => faithful_machine(random, symbols, states, style),
        17..=18 => open_machine(random, symbols, states, style),
        _ if random.percent(20) => Machine { endings: style.endings(random, states), arcs: vec![] },
        _ => shared_machine(random, symbols, states, &Style { density: 100, ..*style }),
    }
}

/// State counts of so many machines, with a product of at most `bound`.
fn state_counts(random: &mut Random, machines: usize, bound: usize) -> Vec<usize> {
    let mut room = bound;
    let mut counts = Vec::new();
    for _ in 0..machines {
        counts.push(random.between(1, room.min(32)));
        room /= counts.last().unwrap();
    }
    random.shuffle(&mut counts);
    counts
}

/// State counts of two machines or more, with the product 128.
fn most_states(random: &mut Random, machines: usize) -> Vec<usize> {
    let mut counts = vec![1; machines];
    while counts.iter().product::<usize>() < 128 {
        let place = random.below(machines);
        if counts[place] < 32 {
            counts[place] *= 2;
        }
    }
    counts
}

/// A card with these machines.
pub fn card_of(symbols: u8, machines: Vec<Machine>) -> Card {
    let mut offset = 2 + 4 * machines.len();
    let mut places = Vec::new();
    for machine in &machines {
        let length = 2 + machine.endings.len() + 20 * machine.arcs.len();
        places.push((offset, length));
        offset += length;
    }
    Card { symbols, machines, places }
}

/// A symbol count, small ones more often.
fn any_symbols(random: &mut Random) -> u8 {
    let most = random.one_of(&[2, 2, 3, 3, 4, 6, 10, 16, 63]);
    if random.percent(4) {
        63
    } else {
        random.between(1, most) as u8
    }
}

/// An accepted card.
pub fn any_card(random: &mut Random) -> Card {
    let machines = random.between(1, 6);
    let symbols = any_symbols(random);
    let counts = if machines > 1 && random.percent(2) {
        most_states(random, machines)
    } else {
        let bound = random.one_of(&[1, 2, 4, 4, 6, 8, 8, 12, 16, 24, 32, 48, 64, 128]);
        state_counts(random, machines, bound)
    };
    // gaps in one machine are enough to leave some words without a candidate
    let density = random.one_of(&[100, 100, 98, 90]);
    let style = Style { density, ..Style::by_chance(random) };
    let mut list = Vec::new();
    for states in counts {
        // some machines keep to a style of their own
        let own = if random.percent(10) { Style::by_chance(random) } else { style };
        list.push(any_machine(random, symbols, states, &own));
    }
    if random.percent(2) {
        let place = random.below(machines);
        list[place].endings.fill(None);
    }
    card_of(symbols, list)
}

/// An accepted card on which long candidates are complete: every pair is taken everywhere, all states are final.
pub fn open_card(random: &mut Random) -> Card {
    let (machines, symbols) = (random.between(1, 6), any_symbols(random));
    let style = Style { density: 100, finals: Finals::All, ..Style::by_chance(random) };
    let bound = random.one_of(&[1, 4, 16, 128]);
    let counts = state_counts(random, machines, bound);
    let mut list = Vec::new();
    for states in counts {
        let mut made = faithful_machine(random, symbols, states, &style);
        if random.percent(30) {
            made = open_machine(random, symbols, states, &style);
        }
        list.push(made);
    }
    card_of(symbols, list)
}

/// A ranking of so many machines.
pub fn any_ranking(random: &mut Random, machines: usize) -> Vec<u8> {
    let mut ranking: Vec<u8> = (0..machines as u8).collect();
    random.shuffle(&mut ranking);
    ranking
}

/// A word of 0 to 24 symbols, short ones more often.
pub fn any_word(random: &mut Random, symbols: u8) -> Vec<u8> {
    let most = random.one_of(&[2, 3, 4, 5, 6, 8, 12, 24]);
    let length = match random.below(100) {
        0..=3 => 24,
        4..=11 => 0,
        _ => random.between(1, most),
    };
    let kinds = random.between(1, symbols as usize);
    let lowest = random.between(0, symbols as usize - kinds);
    (0..length).map(|_| (lowest + random.between(1, kinds)) as u8).collect()
}
