//! Faults put into what was right: into cards, parts, rankings and words.

use crate::card::{lay_out, Card, Machine};
use crate::random::Random;
use crate::samples;

/// Where an arc's fields are.
const FROM: usize = 0;
const TO: usize = 1;
const MARKS: usize = 2;
const KIND: usize = 3;
const INPUTS: usize = 4;
const OUTPUTS: usize = 12;

/// A byte somewhere in these bytes changed to another.
pub fn change_a_byte(random: &mut Random, bytes: &mut [u8]) {
    if !bytes.is_empty() {
        let place = random.below(bytes.len());
        bytes[place] = match random.below(4) {
            0 => random.byte(),
            1 => bytes[place] ^ 1 << random.below(8),
            2 => bytes[place].wrapping_add(1),
            _ => bytes[place].wrapping_sub(1),
        };
    }
}

/// The place of an arc in a part, if it has one.
fn any_arc(random: &mut Random, part: &[u8]) -> Option<usize> {
    let (states, arcs) = (*part.first()? as usize, *part.get(1)? as usize);
    let place = 2 + states + 20 * random.below(arcs.max(1));
    (place + 20 <= part.len()).then_some(place)
}

/// A new count in place of the right one: its neighbours, the limits' neighbours, any.
fn another_count(random: &mut Random, count: u8, limit: u8) -> u8 {
    match random.below(5) {
        0 => 0,
        1 => count.wrapping_add(1),
        2 => count.wrapping_sub(1),
        3 => limit + 1,
        _ => random.byte(),
    }
}

/// Counts or length of a part that do not agree: refusal 3.
fn damage_the_counts(random: &mut Random, part: &mut Vec<u8>) {
    match random.below(6) {
        0 => part.truncate(random.below(4)),
        1 if part.len() > 1 => part[0] = another_count(random, part[0], 32),
        2 if part.len() > 1 => part[1] = random.one_of(&[part[1].wrapping_add(1), part[1].wrapping_sub(1)]),
        3 => {
            part.pop();
        }
        4 => part.truncate(part.len().saturating_sub(20)),
        _ => part.push(random.byte()),
    }
}

/// A field of a part out of its bounds: refusal 4.
fn damage_a_field(random: &mut Random, symbols: u8, part: &mut [u8]) {
    let states = part.first().copied().unwrap_or(0);
    let kind = random.below(9);
    if kind == 0 {
        let place = 2 + random.below(states.max(1) as usize);
        if let Some(byte) = part.get_mut(place) {
            let any = random.between(17, 255) as u8;
            *byte = random.one_of(&[17, 17, 128, any]);
        }
        return;
    }
    let place = match any_arc(random, part) {
        Some(place) => place,
        None => return,
    };
    let arc = &mut part[place..place + 20];
    match kind {
        1 => arc[FROM] = random.one_of(&[states, states.wrapping_add(1), 255]),
        2 => arc[TO] = random.one_of(&[states, states.wrapping_add(1), 255]),
        3 => arc[MARKS] = random.one_of(&[16, 17, 128, 255]),
        4 => arc[KIND] = random.one_of(&[3, 3, 4, 128, 255]),
        5 => arc[INPUTS..OUTPUTS].fill(0),
        6 => arc[OUTPUTS..].fill(0),
        _ => {
            // bits from 0 to 63: for 63 symbols none is too high
            let any = random.between(symbols as usize, 63);
            let bit = random.one_of(&[symbols as usize + 1, 63, any]).min(63);
            arc[if kind == 7 { INPUTS } else { OUTPUTS } + bit / 8] |= 1 << (bit % 8);
        }
    }
}

/// Another arc that takes one pair of an arc of its state, or more: refusal 5.
fn add_a_clash(random: &mut Random, symbols: u8, part: &mut Vec<u8>) {
    if part.len() < 2 || part[1] == 255 {
        return;
    }
    let place = match any_arc(random, part) {
        Some(place) => place,
        None => return,
    };
    if random.percent(15) {
        // an arc that takes more than its kind let it
        part[place + KIND] = 0;
    }
    let mut arc = part[place..place + 20].to_vec();
    let bits = |set: &[u8]| (0..64).filter(|bit| set[bit / 8] >> (bit % 8) & 1 == 1).collect::<Vec<usize>>();
    if random.percent(70) {
        // one pair of the arc's own, and perhaps symbols on one side that it does not have; 0:0 makes no clash
        let (inputs, outputs) = (bits(&arc[INPUTS..OUTPUTS]), bits(&arc[OUTPUTS..]));
        if inputs.is_empty() || outputs.is_empty() {
            return;
        }
        let (input, output) = (random.one_of(&inputs), random.one_of(&outputs));
        arc[INPUTS..].fill(0);
        arc[INPUTS + input / 8] |= 1 << (input % 8);
        arc[OUTPUTS + output / 8] |= 1 << (output % 8);
        if random.percent(50) {
            let more = random.between(0, symbols.min(63) as usize);
            arc[random.one_of(&[INPUTS, OUTPUTS]) + more / 8] |= 1 << (more % 8);
        }
    }
    part[1] += 1;
    let (states, arcs) = (part[0] as usize, part[1] as usize);
    let at = 2 + states + 20 * random.below(arcs);
    let at = at.min(part.len());
    part.splice(at..at, arc);
}

/// A fault in one part: refusals 3 to 5, for most of them.
pub fn damage_a_part(random: &mut Random, symbols: u8, part: &mut Vec<u8>) {
    match random.below(10) {
        0..=2 => damage_the_counts(random, part),
        3..=5 => damage_a_field(random, symbols, part),
        6..=8 => add_a_clash(random, symbols, part),
        _ => change_a_byte(random, part),
    }
}

/// More states, none of them final, until P is over 128: refusal 6. One machine alone cannot have so many.
pub fn add_states(random: &mut Random, machines: &mut Vec<Machine>) {
    if machines.len() == 1 {
        machines.push(machines[0].clone());
    }
    let counts = |machines: &[Machine]| machines.iter().map(|m| m.endings.len()).product::<usize>();
    // at times the most, otherwise as few as possible
    let huge = random.percent(20);
    while counts(machines) <= 128 {
        let place = random.below(machines.len());
        let endings = &mut machines[place].endings;
        let more = if huge { 32 } else { (endings.len() + 1).min(32) };
        endings.resize(more, None);
    }
}

/// Table and bytes of a card that do not agree, or a first byte that is wrong: refusals 1 and 2, for most of them.
fn damage_the_layout(random: &mut Random, card: &mut Vec<u8>) {
    let machines = card.first().copied().unwrap_or(0) as usize;
    let table = 2 + 4 * machines;
    if card.len() < table || machines == 0 {
        return change_a_byte(random, card);
    }
    match random.below(12) {
        0 => card.truncate(random.below(table + 1)),
        1 => card.truncate(random.below(card.len())),
        2 => {
            card.pop();
        }
        3 => card.extend(random.one_of(&[&[0][..], &[1, 2, 3]])),
        4 | 5 => card[0] = another_count(random, card[0], 6),
        6 | 7 => card[1] = another_count(random, card[1], 63),
        8 => change_a_byte(random, &mut card[2..table]),
        9 => {
            // two rows of the table change places
            let (a, b) = (random.below(machines), random.below(machines));
            for byte in 0..4 {
                card.swap(2 + 4 * a + byte, 2 + 4 * b + byte);
            }
        }
        10 => {
            // a byte between the table and the first part, and all offsets moved on
            card.insert(table, 0);
            for machine in 0..machines {
                card[2 + 4 * machine] = card[2 + 4 * machine].wrapping_add(1);
            }
        }
        _ => {
            // the first part from the table's last byte on
            card[2] = card[2].wrapping_sub(1);
            card[4] = card[4].wrapping_add(1);
        }
    }
}

/// A card whose second offset is right only for numbers of 16 bits, which wrap.
fn wrapped_card() -> Vec<u8> {
    [&[2, 2, 10, 0, 255, 255, 9, 0, 1, 0][..], &[0; 65_535]].concat()
}

/// A card with one fault or two.
pub fn damaged_card(random: &mut Random, card: &Card) -> Vec<u8> {
    if random.below(2_000) == 0 {
        return wrapped_card();
    }
    if random.percent(2) {
        let length = random.below(40);
        return random.bytes(length);
    }
    let mut machines = card.machines.clone();
    let too_many_states = random.percent(20);
    if too_many_states {
        add_states(random, &mut machines);
    }
    let mut parts: Vec<Vec<u8>> = machines.iter().map(Machine::part).collect();
    let times = if too_many_states { random.one_of(&[0, 0, 0, 1]) } else { random.one_of(&[0, 1, 1, 1, 2]) };
    for _ in 0..times {
        let place = random.below(parts.len());
        damage_a_part(random, card.symbols, &mut parts[place]);
    }
    let mut bytes = lay_out(card.symbols, &parts);
    let times = random.one_of(&[0, 0, 0, 1, 1, 2]);
    for _ in 0..times {
        damage_the_layout(random, &mut bytes);
    }
    if random.percent(4) {
        change_a_byte(random, &mut bytes);
    }
    bytes
}

/// The card's bytes, with a fault so many times in a hundred.
pub fn perhaps_damaged(random: &mut Random, card: &Card, share: usize) -> Vec<u8> {
    if random.percent(share) {
        damaged_card(random, card)
    } else {
        samples::card(card.symbols, &card.machines)
    }
}

/// Bytes that are no ranking any more, or one of other machines: refusal 7.
pub fn damage_a_ranking(random: &mut Random, ranking: &mut Vec<u8>) {
    let machines = ranking.len();
    match random.below(9) {
        0 => ranking.clear(),
        1 => {
            ranking.pop();
        }
        2 => ranking.push(machines as u8),
        3 => ranking.push(random.below(machines.max(1)) as u8),
        4 if machines > 0 => ranking[random.below(machines)] = machines as u8,
        5 if machines > 0 => ranking[random.below(machines)] = random.one_of(&[255, 128, 8, 64]),
        6 if machines > 1 => ranking[random.below(machines)] = ranking[random.below(machines)],
        7 => ranking.resize(256 + machines, 0), // a length that 8 bits do not hold
        _ => {
            let length = random.below(12);
            *ranking = random.bytes(length);
        }
    }
}

/// A word too long, or with a symbol that is none: refusal 8.
pub fn damage_a_word(random: &mut Random, word: &mut Vec<u8>, symbols: u8) {
    let place = random.below(word.len().max(1));
    match random.below(5) {
        0 => word.resize(25, 1),
        1 => word.resize(random.between(26, 290), symbols),
        2 if !word.is_empty() => word[place] = 0,
        3 if !word.is_empty() => word[place] = symbols.wrapping_add(1),
        _ if !word.is_empty() => word[place] = random.one_of(&[64, 128, 255]),
        _ => word.push(0),
    }
}
