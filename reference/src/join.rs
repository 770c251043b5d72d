//! Joining two machines of a card by Ellison's product. Whether two arcs take a common pair is found by trying pairs.

use crate::card::{lay_out, read_card, share_a_pair, Arc, Machine};
use crate::{Profile, Refusal};

/// Whether a machine has marks, of an arc or of an ending.
pub fn has_marks(machine: &Machine) -> bool {
    machine.arcs.iter().any(|arc| arc.marks > 0) || machine.endings.iter().flatten().any(|&marks| marks > 0)
}

/// The joined machine of the lower numbered one and the other, however large.
pub fn joined(lower: &Machine, other: &Machine) -> Machine {
    let width = other.endings.len();
    let both = |a: &Option<u16>, b: &Option<u16>| Some((*a)? + (*b)?);
    let endings = lower.endings.iter().flat_map(|a| other.endings.iter().map(move |b| both(a, b))).collect();
    let pair = |a: &Arc, b: &Arc| Arc {
        from: a.from * width + b.from,
        to: a.to * width + b.to,
        marks: a.marks + b.marks,
        kind: if a.kind == 0 { b.kind } else { a.kind },
        inputs: a.inputs & b.inputs,
        outputs: a.outputs & b.outputs,
    };
    let mut arcs = Vec::new();
    for a in &lower.arcs {
        for b in other.arcs.iter().filter(|b| share_a_pair(a, b)) {
            arcs.push(pair(a, b));
        }
    }
    Machine { endings, arcs }
}

/// A profile of the old card on the new one: the two counts added in the lower place, the later ones a place down.
pub fn moved(old: &Profile, low: usize, high: usize) -> Profile {
    let mut counts = old.to_vec();
    counts[low] += counts.remove(high);
    counts.push(0);
    counts.try_into().expect("six counts")
}

/// The whole call: refusals 1 to 6, 27, 28, 18; the new card fills the front of the target; its length.
pub fn join(card: &[u8], first: u8, second: u8, target: &mut [u8]) -> Result<usize, Refusal> {
    let read = read_card(card)?;
    let (low, high) = (first.min(second) as usize, first.max(second) as usize);
    if low == high || high >= read.machines.len() {
        return Err(27);
    }
    let (lower, other) = (&read.machines[low], &read.machines[high]);
    if has_marks(lower) && has_marks(other) {
        return Err(27);
    }
    let joined = joined(lower, other);
    if joined.endings.len() > 32 || joined.arcs.len() > 255 {
        return Err(28);
    }
    let mut parts: Vec<Vec<u8>> = read.machines.iter().map(Machine::part).collect();
    parts[low] = joined.part();
    parts.remove(high);
    let new = lay_out(read.symbols, &parts);
    let front = target.get_mut(..new.len()).ok_or(18u8)?;
    front.copy_from_slice(&new);
    Ok(new.len())
}
