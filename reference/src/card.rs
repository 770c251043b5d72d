//! Cards and their machines: layout, checks 1 to 6, reading a part, packing.

use crate::Refusal;

#[derive(Clone, Debug, PartialEq, Eq)]
pub struct Arc {
    pub from: usize,
    pub to: usize,
    pub marks: u16,
    /// 0 takes any pair of its sets, 1 those with in equal to out, 2 those with in unlike out.
    pub kind: u8,
    pub inputs: u64,
    pub outputs: u64,
}

impl Arc {
    pub fn takes(&self, input: u8, output: u8) -> bool {
        let of_its_kind = match self.kind {
            0 => true,
            1 => input == output,
            _ => input != output,
        };
        of_its_kind && self.inputs >> input & 1 == 1 && self.outputs >> output & 1 == 1
    }

    /// An arc's 20 bytes, with whatever its fields hold.
    pub fn read(bytes: &[u8]) -> Arc {
        Arc {
            from: bytes[0] as usize,
            to: bytes[1] as usize,
            marks: bytes[2] as u16,
            kind: bytes[3],
            inputs: set(bytes, 4),
            outputs: set(bytes, 12),
        }
    }
}

#[derive(Clone, Debug, PartialEq, Eq)]
pub struct Machine {
    /// For each state its ending marks, or nothing where it is not final.
    pub endings: Vec<Option<u16>>,
    pub arcs: Vec<Arc>,
}

impl Machine {
    /// The arc that takes a pair.
    pub fn arc(&self, state: usize, input: u8, output: u8) -> Option<&Arc> {
        self.arcs.iter().find(|arc| arc.from == state && arc.takes(input, output))
    }

    /// Taking a pair: the state moved on to, and the marks.
    pub fn step(&self, state: usize, input: u8, output: u8) -> Option<(usize, u16)> {
        self.arc(state, input, output).map(|arc| (arc.to, arc.marks))
    }

    /// The steps of all states with a pair.
    pub fn column(&self, input: u8, output: u8) -> Vec<Option<(usize, u16)>> {
        (0..self.endings.len()).map(|state| self.step(state, input, output)).collect()
    }

    /// The arcs that a complete candidate, as bytes, travels in turn.
    pub fn travelled(&self, pairs: &[u8]) -> Vec<&Arc> {
        let mut state = 0;
        let step = |pair: &[u8]| {
            let arc = self.arc(state, pair[0], pair[1]).expect("a complete candidate");
            state = arc.to;
            arc
        };
        pairs.chunks(2).map(step).collect()
    }

    /// The machine's part of a card.
    pub fn part(&self) -> Vec<u8> {
        let mut part = vec![self.endings.len() as u8, self.arcs.len() as u8];
        part.extend(self.endings.iter().map(|ending| ending.map_or(0, |marks| marks as u8 + 1)));
        for arc in &self.arcs {
            part.extend([arc.from as u8, arc.to as u8, arc.marks as u8, arc.kind]);
            part.extend(arc.inputs.to_le_bytes());
            part.extend(arc.outputs.to_le_bytes());
        }
        part
    }
}

#[derive(Clone, Debug, PartialEq, Eq)]
pub struct Card {
    pub symbols: u8,
    pub machines: Vec<Machine>,
    /// Each part's offset and length.
    pub places: Vec<(usize, usize)>,
}

impl Card {
    /// P, the product of the state counts.
    pub fn states(&self) -> usize {
        product(&self.machines)
    }
}

fn product(machines: &[Machine]) -> usize {
    machines.iter().map(|m| m.endings.len()).product()
}

fn short(bytes: &[u8], at: usize) -> usize {
    bytes[at] as usize | (bytes[at + 1] as usize) << 8
}

fn set(bytes: &[u8], at: usize) -> u64 {
    bytes[at..at + 8].iter().rev().fold(0, |sum, &byte| sum << 8 | byte as u64)
}

/// A machine part: refusals 3, 4, 5.
pub fn read_machine(part: &[u8], symbols: u8) -> Result<Machine, Refusal> {
    if part.len() < 2 {
        return Err(3);
    }
    let (states, arcs) = (part[0] as usize, part[1] as usize);
    if !(1..=32).contains(&states) || part.len() != 2 + states + 20 * arcs {
        return Err(3);
    }
    let state_bytes = &part[2..2 + states];
    if state_bytes.iter().any(|&byte| byte > 16) {
        return Err(4);
    }
    let mut list = Vec::new();
    for bytes in part[2 + states..].chunks(20) {
        let arc = Arc::read(bytes);
        let bad_set = |set: u64| set == 0 || (symbols as u32 + 1..64).any(|bit| set >> bit & 1 == 1);
        if arc.from >= states || arc.to >= states || arc.marks > 15 || arc.kind > 2 {
            return Err(4);
        }
        if bad_set(arc.inputs) || bad_set(arc.outputs) {
            return Err(4);
        }
        list.push(arc);
    }
    for (place, first) in list.iter().enumerate() {
        for second in &list[place + 1..] {
            if first.from == second.from && share_a_pair(first, second) {
                return Err(5);
            }
        }
    }
    let endings = state_bytes.iter().map(|&byte| (byte as u16).checked_sub(1)).collect();
    Ok(Machine { endings, arcs: list })
}

/// Whether both arcs take some pair, symbol after symbol; 0:0 is no pair.
pub fn share_a_pair(first: &Arc, second: &Arc) -> bool {
    let both = |a: u64, b: u64| (0..64u8).filter(move |&symbol| a >> symbol & b >> symbol & 1 == 1);
    let taken = |input, output| first.takes(input, output) && second.takes(input, output);
    both(first.inputs, second.inputs).any(|input| {
        both(first.outputs, second.outputs).any(|output| (input, output) != (0, 0) && taken(input, output))
    })
}

/// The parts of a card in order, each for 3, 4, 5, then 6.
fn read_machines(parts: &[&[u8]], symbols: u8) -> Result<Vec<Machine>, Refusal> {
    let machines = parts.iter().map(|part| read_machine(part, symbols)).collect::<Result<Vec<_>, _>>()?;
    if product(&machines) > 128 {
        return Err(6);
    }
    Ok(machines)
}

/// A card: refusals 1 to 6.
pub fn read_card(card: &[u8]) -> Result<Card, Refusal> {
    if card.len() < 2 {
        return Err(1);
    }
    let (count, symbols) = (card[0] as usize, card[1]);
    if !(1..=6).contains(&count) || !(1..=63).contains(&symbols) {
        return Err(1);
    }
    if card.len() < 2 + 4 * count {
        return Err(2);
    }
    let mut places = Vec::new();
    let mut due = 2 + 4 * count;
    for i in 0..count {
        let (offset, length) = (short(card, 2 + 4 * i), short(card, 4 + 4 * i));
        if offset != due {
            return Err(2);
        }
        due = offset + length;
        places.push((offset, length));
    }
    if due != card.len() {
        return Err(2);
    }
    let parts: Vec<&[u8]> = places.iter().map(|&(offset, length)| &card[offset..offset + length]).collect();
    let machines = read_machines(&parts, symbols)?;
    Ok(Card { symbols, machines, places })
}

/// Reading a part: its offset and length.
pub fn read_part(card: &[u8], machine: u8) -> Result<(usize, usize), Refusal> {
    let read = read_card(card)?;
    read.places.get(machine as usize).copied().ok_or(17)
}

/// Parts laid out as a card, without a check.
pub fn lay_out(symbols: u8, parts: &[Vec<u8>]) -> Vec<u8> {
    let mut card = vec![parts.len() as u8, symbols];
    let mut offset = 2 + 4 * parts.len();
    for part in parts {
        card.extend((offset as u16).to_le_bytes());
        card.extend((part.len() as u16).to_le_bytes());
        offset += part.len();
    }
    card.extend(parts.concat());
    card
}

/// Packing: the card fills the front of the target; its length.
pub fn pack(symbols: u8, lengths: &[u16], joined: &[u8], target: &mut [u8]) -> Result<usize, Refusal> {
    if !(1..=6).contains(&lengths.len()) || !(1..=63).contains(&symbols) {
        return Err(1);
    }
    let total: usize = lengths.iter().map(|&length| length as usize).sum();
    if total != joined.len() {
        return Err(17);
    }
    let mut parts = Vec::new();
    let mut rest = joined;
    for &length in lengths {
        let (part, more) = rest.split_at(length as usize);
        parts.push(part);
        rest = more;
    }
    read_machines(&parts, symbols)?;
    let card = lay_out(symbols, &parts.iter().map(|part| part.to_vec()).collect::<Vec<_>>());
    let front = target.get_mut(..card.len()).ok_or(18u8)?;
    front.copy_from_slice(&card);
    Ok(card.len())
}
