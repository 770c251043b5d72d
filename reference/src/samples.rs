//! Cards for tests: A and B of the requirements, random ones, and the heaviest that are accepted.

use crate::card::{lay_out, read_card, Arc, Machine};
use crate::random::Random;

/// The set of some symbols.
pub fn set(symbols: impl IntoIterator<Item = u8>) -> u64 {
    symbols.into_iter().fold(0, |set, symbol| set | 1 << symbol)
}

pub fn arc(from: usize, to: usize, marks: u16, inputs: u64, outputs: u64) -> Arc {
    Arc { from, to, marks, kind: 0, inputs, outputs }
}

/// The same arc for the pairs with in equal to out alone.
pub fn same(arc: Arc) -> Arc {
    Arc { kind: 1, ..arc }
}

/// The same arc for the pairs with in unlike out alone.
pub fn unlike(arc: Arc) -> Arc {
    Arc { kind: 2, ..arc }
}

/// A machine whose endings have no marks.
pub fn machine(finals: &[bool], arcs: Vec<Arc>) -> Machine {
    Machine { endings: finals.iter().map(|&is_final| is_final.then_some(0)).collect(), arcs }
}

pub fn card(symbols: u8, machines: &[Machine]) -> Vec<u8> {
    lay_out(symbols, &machines.iter().map(Machine::part).collect::<Vec<_>>())
}

/// Card A, byte for byte.
pub const CARD_A: [u8; 29] = [
    0x01, 0x02, 0x06, 0x00, 0x17, 0x00, 0x01, 0x01, 0x01, 0x00, 0x00, 0x00, 0x00, 0x02, 0x00, 0x00, 0x00, 0x00, 0x00,
    0x00, 0x00, 0x06, 0x00, 0x00, 0x00, 0x00, 0x00, 0x00, 0x00,
];

/// Card B: onset, insertion, deletion over 1, a consonant, and 2, a vowel.
pub fn card_b() -> Vec<u8> {
    let (empty, consonant, vowel, segment, any) = (set([0]), set([1]), set([2]), set([1, 2]), set([0, 1, 2]));
    let onset = vec![
        arc(0, 0, 0, any, empty),
        arc(0, 1, 0, any, consonant),
        arc(0, 0, 1, any, vowel),
        arc(1, 1, 0, any, empty),
        arc(1, 1, 0, any, consonant),
        arc(1, 0, 0, any, vowel),
    ];
    let insertion = vec![arc(0, 0, 0, segment, any), arc(0, 0, 1, empty, segment)];
    let deletion = vec![
        arc(0, 0, 0, consonant, consonant),
        arc(0, 0, 0, vowel, vowel),
        arc(0, 0, 0, empty, segment),
        arc(0, 0, 1, segment, empty),
    ];
    card(2, &[machine(&[true, true], onset), machine(&[true], insertion), machine(&[true], deletion)])
}

/// Card B with state byte 2 for state 1 of machine 0: a mark for a consonant at the end.
pub fn card_b_ending() -> Vec<u8> {
    let mut card = card_b();
    card[17] = 2;
    card
}

/// Card B with the deletion machine by kinds: one arc for what stays as it is, one for insertions.
pub fn card_b_kinds() -> Vec<u8> {
    let mut machines = read_card(&card_b()).expect("card B").machines;
    let (empty, segment) = (set([0]), set([1, 2]));
    machines[2].arcs = vec![
        same(arc(0, 0, 0, segment, segment)),
        unlike(arc(0, 0, 0, empty, segment)),
        unlike(arc(0, 0, 1, segment, empty)),
    ];
    card(2, &machines)
}

/// `count` sets that share out the symbols, none of them empty, by chance.
pub fn shared_out(random: &mut Random, symbols: impl Iterator<Item = u8>, count: usize) -> Vec<u64> {
    let mut list: Vec<u8> = symbols.collect();
    random.shuffle(&mut list);
    (0..count).map(|place| set(list.iter().skip(place).step_by(count).copied())).collect()
}

/// A machine that takes every pair in every state, with `inserting` arcs a state for insertions and `reading` × `writing`
/// for the other pairs; marks and targets by chance.
fn full_machine(random: &mut Random, states: usize, inserting: usize, reading: usize, writing: usize) -> Machine {
    let mut arcs = Vec::new();
    for from in 0..states {
        let mut blocks: Vec<(u64, u64)> =
            shared_out(random, 1..64, inserting).into_iter().map(|outputs| (set([0]), outputs)).collect();
        for inputs in shared_out(random, 1..64, reading) {
            blocks.extend(shared_out(random, 0..64, writing).into_iter().map(|outputs| (inputs, outputs)));
        }
        for (inputs, outputs) in blocks {
            arcs.push(arc(from, random.below(states), random.below(16) as u16, inputs, outputs));
        }
    }
    let finals: Vec<bool> = (0..states).map(|state| state == states - 1 || random.below(2) == 1).collect();
    machine(&finals, arcs)
}

/// Five machines of two states and one of four, every pair taken everywhere, 255 arcs or nearly.
fn full_machines() -> Vec<Machine> {
    let mut random = Random::new(1994);
    let mut machines: Vec<Machine> = (0..5).map(|_| full_machine(&mut random, 2, 31, 4, 24)).collect();
    machines.push(full_machine(&mut random, 4, 15, 3, 16));
    machines
}

/// Every pair taken everywhere: P = 128, S = 63.
pub fn full() -> Vec<u8> {
    card(63, &full_machines())
}

/// As `full`, but no candidate is complete: the first machine stays in state 0, which is not final.
pub fn none() -> Vec<u8> {
    let mut machines = full_machines();
    machines[0].endings = vec![None, Some(0)];
    for arc in &mut machines[0].arcs {
        arc.to = arc.from;
    }
    card(63, &machines)
}

/// Two machines that count to 128 together, 32 × 4 states: an insertion of a symbol from `lowest` to `carry` moves the
/// first one on, an insertion of a higher one carries from its last state to the second. Only in the last states of both
/// a symbol of the word is taken and the count starts again, and only there a candidate may end. So a candidate passes
/// every node, and has 127 insertions at each position.
fn counters(lowest: u8, carry: u8, symbols: u8, marks: u16) -> [Machine; 2] {
    let (empty, segment, any) = (set([0]), set(1..=symbols), set(lowest..=symbols));
    let (step, carried) = (set(lowest..=carry), set(carry + 1..=symbols));
    let mut first: Vec<Arc> = (0..31).map(|state| arc(state, state + 1, marks, empty, step)).collect();
    first.push(arc(31, 0, marks, empty, carried));
    first.push(arc(31, 0, marks, segment, any));
    let mut second: Vec<Arc> = (0..4).map(|state| arc(state, state, marks, empty, step)).collect();
    second.extend((0..3).map(|state| arc(state, state + 1, marks, empty, carried)));
    second.push(arc(3, 0, marks, segment, any));
    let last = |states: usize| (0..states).map(|state| state == states - 1).collect::<Vec<bool>>();
    [machine(&last(32), first), machine(&last(4), second)]
}

/// The chain with few arcs: for 24 symbols the best has 3,199 pairs and both counts are 47,985.
pub fn chain() -> Vec<u8> {
    card(3, &counters(1, 1, 3, 15))
}

/// The chain with its machines in the other order. The code of a joint state has the first machine's state first, so an
/// insertion leads from each joint state to the one behind it, from code 0 to 127, where a symbol leads back to 0.
pub fn chain_behind() -> Vec<u8> {
    let [first, second] = counters(1, 1, 3, 15);
    card(3, &[second, first])
}

/// The machine with its states numbered from the last one; it starts in what was its last state.
fn turned(machine: &Machine) -> Machine {
    let last = machine.endings.len() - 1;
    let turn = |arc: &Arc| Arc { from: last - arc.from, to: last - arc.to, ..arc.clone() };
    Machine { endings: machine.endings.iter().rev().copied().collect(), arcs: machine.arcs.iter().map(turn).collect() }
}

/// That chain with the states numbered from the last one: an insertion leads from each joint state to the one before it, from
/// code 127 to 0, where a symbol leads back to 127. The start is the chain's end, so a candidate passes one node there, and
/// all 128 at each later position.
pub fn chain_before() -> Vec<u8> {
    let [first, second] = counters(1, 1, 3, 15);
    card(3, &[turned(&second), turned(&first)])
}

/// Insertions that lead down by one to five joint states, the longer the dearer in proportion, where everything else is dearer the
/// higher the joint state: of the two machines that make the code, 8 × 16 states, each gives as many marks for taking a symbol as
/// its state's number. Taking a symbol leads to code 127, and a candidate ends at code 0. Inserting `fall`, 1 to 5, leads down by
/// `fall` codes, and `LONGEST + fall` does where the first machine goes down by one state; the third machine gives `fall` marks.
pub fn falling() -> Vec<u8> {
    const LONGEST: u8 = 5;
    const HIGH: usize = 8;
    const LOW: usize = 16;
    let (empty, within, across) = (set([0]), set(1..=LONGEST), set(LONGEST + 1..=2 * LONGEST));
    let segment = within | across;
    let taking = |states: usize| (0..states).map(move |state| arc(state, states - 1, state as u16, segment, segment));
    let first = |states: usize| (0..states).map(|state| state == 0).collect::<Vec<bool>>();
    let mut high: Vec<Arc> = taking(HIGH).collect();
    high.extend((0..HIGH).map(|state| arc(state, state, 0, empty, within)));
    high.extend((1..HIGH).map(|state| arc(state, state - 1, 0, empty, across)));
    let mut low: Vec<Arc> = taking(LOW).collect();
    let mut prices = vec![arc(0, 0, 0, segment, segment)];
    for fall in 1..=LONGEST {
        let states = fall as usize;
        low.extend((states..LOW).map(|state| arc(state, state - states, 0, empty, set([fall]))));
        low.extend((0..states).map(|state| arc(state, state + LOW - states, 0, empty, set([LONGEST + fall]))));
        prices.push(arc(0, 0, fall as u16, empty, set([fall, LONGEST + fall])));
    }
    card(2 * LONGEST, &[machine(&first(HIGH), high), machine(&first(LOW), low), machine(&[true], prices)])
}

/// The chain with ending marks: for 24 symbols both counts are 48,000, the most that there can be.
pub fn chain_ending() -> Vec<u8> {
    let mut machines = counters(1, 1, 3, 15);
    for machine in &mut machines {
        *machine.endings.last_mut().expect("a machine has a state") = Some(15);
    }
    card(3, &machines)
}

/// The lower half of a set of two symbols or more.
fn lower_half(set: u64) -> u64 {
    let middle = (0..64).filter(|symbol| set >> symbol & 1 == 1).nth(set.count_ones() as usize / 2);
    set & ((1u64 << middle.expect("a set of two symbols or more")) - 1)
}

/// The arc with the most pairs split in two, first by its outputs, until there are 255 arcs; the least outputs come last.
fn split(machine: &Machine) -> Machine {
    let mut arcs = machine.arcs.clone();
    while arcs.len() < 255 {
        arcs.sort_by_key(|arc| arc.inputs.count_ones() * arc.outputs.count_ones());
        let whole = arcs.pop().expect("a machine with arcs");
        let (mut low, mut high) = (whole.clone(), whole.clone());
        if whole.outputs.count_ones() > 1 {
            low.outputs = lower_half(whole.outputs);
            high.outputs = whole.outputs & !low.outputs;
        } else {
            low.inputs = lower_half(whole.inputs);
            high.inputs = whole.inputs & !low.inputs;
        }
        arcs.extend([low, high]);
    }
    arcs.sort_by_key(|arc| (arc.from, std::cmp::Reverse(arc.outputs.trailing_zeros())));
    Machine { arcs, ..machine.clone() }
}

/// The chain with six machines, 63 symbols and 255 arcs a machine: for 24 symbols all six counts are 47,985. Outputs have
/// two digits, so that for a word of such symbols the program's line is as long as any.
pub fn chain_full() -> Vec<u8> {
    let [first, second] = counters(10, 36, 63, 15);
    let (empty, segment, any) = (set([0]), set(1..64), set(0..64));
    let rest = machine(&[true], vec![arc(0, 0, 15, empty, segment), arc(0, 0, 15, segment, any)]);
    card(63, &[&first, &second, &rest, &rest, &rest, &rest].map(split))
}

/// The chain without marks, and leaps along it with 15: with the first machine on top the best still passes every node,
/// by labels that are bettered again and again; the third machine counts pairs, and with it on top the best leaps.
pub fn shortcuts() -> Vec<u8> {
    let [mut first, second] = counters(1, 31, 63, 0);
    for state in 0..31 {
        first.arcs[state].outputs = set([31]);
        for leap in 2..=7 {
            let to = (state + leap * leap / 2).min(31);
            first.arcs.push(arc(state, to, 15, set([0]), set([leap as u8])));
        }
    }
    let (empty, segment, any) = (set([0]), set(1..64), set(0..64));
    let pairs = machine(&[true], vec![arc(0, 0, 15, empty, segment), arc(0, 0, 0, segment, any)]);
    card(63, &[first, second, pairs])
}
