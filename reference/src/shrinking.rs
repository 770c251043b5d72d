//! A smaller call: from a call that fails, step by step to smaller ones that still fail, until no step does. Another may
//! be smaller still.

use crate::call::Call;
use crate::card::{lay_out, read_card, share_a_pair, Arc};
use crate::join::join;
use crate::live::{Row, Step};
use crate::optimizer::best;
use crate::ranking::is_ranking;
use crate::sets::best_of_sets;
use crate::tableau::{read_tableau, Tableau};
use crate::weights::best_by_weights;
use crate::Profile;
use std::ops::Range;

/// Makes a call smaller as long as it fails.
pub fn shrunk(call: &Call, fails: &dyn Fn(&Call) -> bool) -> Call {
    let mut search = Search { call: call.clone(), size: size(&mut call.clone()), fails };
    loop {
        let before = search.call.clone();
        search.clear_slices();
        search.drop_machines();
        search.drop_arcs();
        search.drop_states();
        search.merge_states();
        search.shorten_parts();
        search.drop_symbols();
        search.shorten_tableaux();
        search.shorten_row_lists();
        search.shorten_sets();
        search.lower_weights();
        search.clear_lists();
        search.shorten_lists();
        search.lower_bytes();
        search.lower_numbers();
        search.sort_the_ranking();
        if search.call == before {
            return before;
        }
    }
}

/// How large a call is, what weighs most first: elements lent, K and S, bits, sum, and the ranking as a number.
fn size(call: &mut Call) -> [u64; 5] {
    let (machines, symbols) = counts(call);
    let (mut bits, mut sum) = (0, 0);
    let mut add = |element: u16| {
        bits += element.count_ones() as u64;
        sum += element as u64;
    };
    let mut length = 0;
    for list in byte_lists(call) {
        length += list.len() as u64;
        list.iter().for_each(|&byte| add(byte as u16));
    }
    for list in number_lists(call) {
        length += list.len() as u64;
        list.iter().for_each(|&number| add(number));
    }
    profiles(call).into_iter().flatten().for_each(|count| add(*count));
    if let Call::ReadPart { machine, .. } = call {
        add(*machine as u16);
    }
    if let Call::Join { first, second, .. } = call {
        add(*first as u16);
        add(*second as u16);
    }
    if let Call::Rows { used, .. } = call {
        add((*used).min(u16::MAX as usize) as u16);
    }
    ids(call).into_iter().for_each(|id| add(*id));
    let (rows, steps) = rows_and_steps(call);
    length += (rows.len() + steps.len()) as u64;
    if let Call::OptimizeWeights { weights, work, .. } = call {
        length += (weights.len() + work.len()) as u64;
        for &weight in weights.iter() {
            bits += weight.count_ones() as u64;
            sum += weight as u64;
        }
    }
    if let Call::OptimizeSets { sets, .. } = call {
        length += sets.len() as u64;
        for &set in sets.iter() {
            bits += set.count_ones() as u64;
            sum += set.trailing_zeros() as u64;
        }
    }
    let order = ranking(call).map_or(0, |list| list.iter().take(8).fold(0, |sum, &byte| sum << 8 | byte as u64));
    [length, machines as u64 + symbols as u64, bits, sum, order]
}

/// K and S as the call has them, 0 where it has none.
fn counts(call: &mut Call) -> (u8, u8) {
    if let Some(machines) = machine_count(call) {
        return (*machines, 0);
    }
    match call {
        Call::Pack { symbols, .. } => (0, *symbols),
        _ => {
            let byte = |place: usize| call.card().and_then(|card| card.get(place)).copied().unwrap_or(0);
            (byte(0), byte(1))
        }
    }
}

/// K, where the call is lent it by itself.
fn machine_count(call: &mut Call) -> Option<&mut u8> {
    match call {
        Call::Compare { machines, .. }
        | Call::Condition { machines, .. }
        | Call::FindRanking { machines, .. }
        | Call::Rows { machines, .. }
        | Call::Live { machines, .. } => Some(machines),
        _ => None,
    }
}

/// The card that a call is lent.
fn card(call: &mut Call) -> Option<&mut Vec<u8>> {
    match call {
        Call::Optimize { card, .. }
        | Call::OptimizeSets { card, .. }
        | Call::OptimizeWeights { card, .. }
        | Call::Join { card, .. }
        | Call::Evaluate { card, .. }
        | Call::ReadPart { card, .. }
        | Call::Judge { card, .. } => Some(card),
        _ => None,
    }
}

fn byte_lists(call: &mut Call) -> Vec<&mut Vec<u8>> {
    match call {
        Call::Optimize { card, ranking, word, answer, .. } => vec![word, answer, ranking, card],
        Call::OptimizeSets { card, ranking, answer, .. } => vec![answer, ranking, card],
        Call::OptimizeWeights { card, word, answer, .. } => vec![word, answer, card],
        Call::Join { card, target, .. } => vec![target, card],
        Call::Evaluate { card, candidate } => vec![candidate, card],
        Call::ReadPart { card, .. } => vec![card],
        Call::Pack { parts, target, .. } => vec![target, parts],
        Call::Compare { ranking, .. } => vec![ranking],
        Call::Condition { .. } => vec![],
        Call::FindRanking { conditions, .. } => vec![conditions],
        Call::Judge { card, ranking, word, tableau, .. } => vec![word, tableau, ranking, card],
        Call::Rows { ranking, .. } | Call::Live { ranking, .. } => vec![ranking],
    }
}

fn number_lists(call: &mut Call) -> Vec<&mut Vec<u16>> {
    match call {
        Call::Optimize { work, .. } | Call::OptimizeSets { work, .. } | Call::Judge { work, .. } => vec![work],
        Call::Pack { lengths, .. } => vec![lengths],
        _ => vec![],
    }
}

fn profiles(call: &mut Call) -> Vec<&mut Profile> {
    match call {
        Call::Compare { first, second, .. } | Call::Condition { first, second, .. } => vec![first, second],
        _ => rows(call).into_iter().map(|row| &mut row.counts).collect(),
    }
}

/// A list of rows that a call is lent.
fn row_list(call: &mut Call) -> Option<&mut Vec<Row>> {
    match call {
        Call::Rows { rows, .. } | Call::Live { rows, .. } => Some(rows),
        _ => None,
    }
}

/// The list of rows that a call is lent, and what is asked of it.
fn rows_and_steps(call: &mut Call) -> (&mut [Row], &mut [Step]) {
    match call {
        Call::Rows { rows, step, .. } => (rows, std::slice::from_mut(step)),
        Call::Live { rows, steps, .. } => (rows, steps),
        _ => (&mut [], &mut []),
    }
}

/// All rows of a call: its list's and those that are added.
fn rows(call: &mut Call) -> Vec<&mut Row> {
    let (rows, steps) = rows_and_steps(call);
    let added = steps.iter_mut().filter_map(|step| match step {
        Step::Add(row) => Some(row),
        _ => None,
    });
    rows.iter_mut().chain(added).collect()
}

/// The ids of rows, and those that are removed.
fn ids(call: &mut Call) -> Vec<&mut u16> {
    let (rows, steps) = rows_and_steps(call);
    let asked = steps.iter_mut().filter_map(|step| match step {
        Step::Add(row) => Some(&mut row.id),
        Step::Remove(id) => Some(id),
        Step::Leader => None,
    });
    rows.iter_mut().map(|row| &mut row.id).chain(asked).collect()
}

fn ranking(call: &mut Call) -> Option<&mut Vec<u8>> {
    match call {
        Call::Optimize { ranking, .. }
        | Call::OptimizeSets { ranking, .. }
        | Call::Compare { ranking, .. }
        | Call::Judge { ranking, .. }
        | Call::Rows { ranking, .. }
        | Call::Live { ranking, .. } => Some(ranking),
        _ => None,
    }
}

/// Symbol count and parts of a card, or of what is to be packed.
#[derive(Clone)]
struct Grammar {
    symbols: u8,
    parts: Vec<Vec<u8>>,
}

/// A call's parts, if they lie where table or lengths say.
fn grammar(call: &Call) -> Option<Grammar> {
    let (symbols, mut rest, lengths): (u8, &[u8], Vec<usize>) = match call {
        Call::Pack { symbols, lengths, parts, .. } => {
            (*symbols, parts, lengths.iter().map(|&length| length as usize).collect())
        }
        _ => {
            let card = call.card()?;
            let table = card.get(2..2 + 4 * *card.first()? as usize)?;
            let lengths = table.chunks(4).map(|row| row[2] as usize | (row[3] as usize) << 8).collect();
            (card[1], &card[2 + table.len()..], lengths)
        }
    };
    let mut parts = Vec::new();
    for length in lengths {
        parts.push(rest.get(..length)?.to_vec());
        rest = &rest[length..];
    }
    let grammar = Grammar { symbols, parts };
    (with_grammar(call, &grammar) == *call).then_some(grammar)
}

/// The call with other parts.
fn with_grammar(call: &Call, grammar: &Grammar) -> Call {
    let mut call = call.clone();
    let list = &grammar.parts;
    match &mut call {
        Call::Pack { symbols, lengths, parts, .. } => {
            *symbols = grammar.symbols;
            *lengths = list.iter().map(|part| part.len() as u16).collect();
            *parts = list.concat();
        }
        other => {
            if let Some(card) = card(other) {
                *card = lay_out(grammar.symbols, list);
            }
        }
    }
    call
}

/// A call's tableau, if it is laid out as it should.
fn tableau(call: &Call) -> Option<Tableau> {
    let tableau = match call {
        Call::Judge { tableau, .. } => tableau,
        _ => return None,
    };
    read_tableau(tableau, 6).ok()
}

/// The call with its tableau changed, if that can be taken apart.
fn with_tableau(call: &Call, change: impl Fn(&mut Tableau)) -> Option<Call> {
    let mut changed = tableau(call)?;
    change(&mut changed);
    let mut call = call.clone();
    if let Call::Judge { tableau, .. } = &mut call {
        *tableau = changed.bytes();
    }
    Some(call)
}

/// The call without some rows; a claimed row that goes is the first one then.
fn without_rows(call: &Call, gone: &Range<usize>) -> Option<Call> {
    with_tableau(call, |tableau| {
        tableau.rows.drain(gone.clone());
        tableau.claimed = renumbered(tableau.claimed, gone).unwrap_or(0);
    })
}

/// The call without some symbols of the word to judge, and without the pairs of the rows that read them.
fn without_word_places(call: &Call, gone: &Range<usize>) -> Option<Call> {
    let mut call = with_tableau(call, |tableau| {
        for row in &mut tableau.rows {
            let mut read = 0;
            let kept = row.candidate.chunks(2).filter(|pair| {
                read += (pair[0] != 0) as usize;
                pair[0] == 0 || !gone.contains(&(read - 1))
            });
            row.candidate = kept.collect::<Vec<_>>().concat();
        }
    })?;
    if let Call::Judge { word, .. } = &mut call {
        word.drain(gone.clone());
    }
    Some(call)
}

/// The call without some of the pairs of a row.
fn without_pairs(call: &Call, row: usize, gone: &Range<usize>) -> Option<Call> {
    with_tableau(call, |tableau| drop(tableau.rows[row].candidate.drain(2 * gone.start..2 * gone.end)))
}

/// A part whose length is what its counts say, with whatever its fields hold.
#[derive(Clone)]
struct Part {
    states: Vec<u8>,
    arcs: Vec<[u8; 20]>,
}

impl Part {
    fn read(bytes: &[u8]) -> Option<Part> {
        let (states, arcs) = (*bytes.first()? as usize, *bytes.get(1)? as usize);
        if bytes.len() != 2 + states + 20 * arcs {
            return None;
        }
        let arcs = bytes[2 + states..].chunks(20).map(|arc| arc.try_into().expect("20 bytes")).collect();
        Some(Part { states: bytes[2..2 + states].to_vec(), arcs })
    }

    fn bytes(&self) -> Vec<u8> {
        let counts = [self.states.len() as u8, self.arcs.len() as u8];
        [&counts[..], &self.states, &self.arcs.concat()].concat()
    }
}

/// A machine's part, if it can be taken apart.
fn part(call: &Call, machine: usize) -> Option<Part> {
    Part::read(grammar(call)?.parts.get(machine)?)
}

/// The call with one part changed, if that can be taken apart.
fn with_part(call: &Call, machine: usize, change: impl Fn(&mut Part)) -> Option<Call> {
    let mut grammar = grammar(call)?;
    let mut part = Part::read(grammar.parts.get(machine)?)?;
    change(&mut part);
    grammar.parts[machine] = part.bytes();
    Some(with_grammar(call, &grammar))
}

/// What the call needs of the slices whose length can be too short: numbers of work, bytes of answer or target.
fn needs(call: &Call) -> Option<(usize, usize)> {
    match call {
        Call::OptimizeWeights { card, weights, word, .. } => {
            let card = read_card(card).ok()?;
            let right = weights.len() == card.machines.len() && word.len() <= 24;
            let symbols = word.iter().all(|&symbol| symbol != 0 && symbol <= card.symbols);
            let best = if right && symbols { best_by_weights(&card, weights, word) } else { None };
            Some((2 * (word.len() + 1) * card.states(), 2 * best.map_or(0, |pairs| pairs.len())))
        }
        Call::OptimizeSets { card, ranking, sets, .. } => {
            let card = read_card(card).ok()?;
            let right = is_ranking(card.machines.len(), ranking) && sets.len() <= 24;
            let pairs = if right { best_of_sets(&card, ranking, sets).map_or(0, |pairs| pairs.len()) } else { 0 };
            Some((8 * (sets.len() + 1) * card.states(), 2 * pairs))
        }
        Call::Judge { card, word, .. } => Some((8 * (word.len() + 1) * read_card(card).ok()?.states(), 0)),
        Call::Optimize { card, ranking, word, .. } => {
            let card = read_card(card).ok()?;
            let right = is_ranking(card.machines.len(), ranking) && word.len() <= 24;
            let symbols = word.iter().all(|&symbol| symbol != 0 && symbol <= card.symbols);
            let pairs = if right && symbols { best(&card, ranking, word).map_or(0, |pairs| pairs.len()) } else { 0 };
            Some((8 * (word.len() + 1) * card.states(), 2 * pairs))
        }
        Call::Join { card, first, second, .. } => {
            let mut long = vec![0; 40_000];
            Some((0, join(card, *first, *second, &mut long).unwrap_or(0)))
        }
        Call::Pack { lengths, parts, .. } => Some((0, 2 + 4 * lengths.len() + parts.len())),
        _ => None,
    }
}

/// The later call with slices that are as much too short or too long as those of the earlier one.
fn refitted(earlier: &Call, later: &Call) -> Option<Call> {
    let ((work_before, slice_before), (work_after, slice_after)) = (needs(earlier)?, needs(later)?);
    let moved = |length: usize, before: usize, after: usize| (length + after).saturating_sub(before);
    let mut call = later.clone();
    match &mut call {
        Call::Optimize { work, answer, .. } | Call::OptimizeSets { work, answer, .. } => {
            work.resize(moved(work.len(), work_before, work_after), 0);
            answer.resize(moved(answer.len(), slice_before, slice_after), 0);
        }
        Call::OptimizeWeights { work, answer, .. } => {
            work.resize(moved(work.len(), work_before, work_after), 0);
            answer.resize(moved(answer.len(), slice_before, slice_after), 0);
        }
        Call::Join { target, .. } => target.resize(moved(target.len(), slice_before, slice_after), 0),
        Call::Pack { target, .. } => target.resize(moved(target.len(), slice_before, slice_after), 0),
        Call::Judge { work, .. } => work.resize(moved(work.len(), work_before, work_after), 0),
        _ => (),
    }
    Some(call)
}

/// A machine's number after others have gone.
fn renumbered(number: u8, gone: &Range<usize>) -> Option<u8> {
    match number as usize {
        low if low < gone.start => Some(number),
        high if high >= gone.end => Some(number - gone.len() as u8),
        _ => None,
    }
}

/// The bits of a set of machines or symbols after some have gone.
fn without_bits(set: u64, gone: &Range<usize>) -> u64 {
    let low = (1u64 << gone.start) - 1;
    set & low | set.checked_shr(gone.end as u32).unwrap_or(0) << gone.start
}

/// The call without some machines.
fn without_machines(call: &Call, gone: &Range<usize>) -> Option<Call> {
    let mut call = match grammar(call) {
        Some(mut grammar) => {
            grammar.parts.drain(gone.clone());
            with_grammar(call, &grammar)
        }
        None => call.clone(),
    };
    if let Some(list) = ranking(&mut call) {
        *list = list.iter().filter_map(|&number| renumbered(number, gone)).collect();
    }
    let without_counts = |profile: &mut Profile| {
        profile.copy_within(gone.end.min(6).., gone.start.min(6));
        profile[6 - gone.len()..].fill(0);
    };
    profiles(&mut call).into_iter().for_each(without_counts);
    if let Some(changed) = with_tableau(&call, |tableau| {
        tableau.rows.iter_mut().for_each(|row| without_counts(&mut row.counts));
    }) {
        call = changed;
    }
    if let Some(machines) = machine_count(&mut call) {
        *machines -= gone.len() as u8;
    }
    match &mut call {
        Call::OptimizeWeights { weights, .. } if gone.end <= weights.len() => drop(weights.drain(gone.clone())),
        Call::Join { first, second, .. } => {
            for machine in [first, second] {
                *machine = renumbered(*machine, gone).unwrap_or(0);
            }
        }
        Call::ReadPart { machine, .. } => *machine = renumbered(*machine, gone).unwrap_or(0),
        Call::FindRanking { conditions, .. } => {
            for set in conditions {
                *set = without_bits(*set as u64, gone) as u8;
            }
        }
        _ => (),
    }
    Some(call)
}

/// The call without some states of a machine, and without their arcs.
fn without_states(call: &Call, machine: usize, gone: &Range<usize>) -> Option<Call> {
    with_part(call, machine, |part| {
        part.states.drain(gone.clone());
        part.arcs.retain_mut(|arc| match (renumbered(arc[0], gone), renumbered(arc[1], gone)) {
            (Some(from), Some(to)) => {
                (arc[0], arc[1]) = (from, to);
                true
            }
            _ => false,
        });
    })
}

/// Whether two arcs of a state take one pair.
fn clash(first: &[u8; 20], second: &[u8; 20]) -> bool {
    first[0] == second[0] && share_a_pair(&Arc::read(first), &Arc::read(second))
}

/// The call with two states of a machine made one, the lower, without arcs that clash then.
fn with_one_state_for_two(call: &Call, machine: usize, low: usize, high: usize) -> Option<Call> {
    with_part(call, machine, |part| {
        // final if one of them is, with the fewer marks
        let (kept, other) = (part.states[low], part.states[high]);
        part.states[low] = if kept == 0 || other == 0 { kept | other } else { kept.min(other) };
        part.states.remove(high);
        let gone = high..high + 1;
        let mut arcs: Vec<[u8; 20]> = Vec::new();
        for arc in &part.arcs {
            let mut arc = *arc;
            for place in [0, 1] {
                arc[place] = renumbered(arc[place], &gone).unwrap_or(low as u8);
            }
            if !arcs.iter().any(|other| clash(other, &arc)) {
                arcs.push(arc);
            }
        }
        part.arcs = arcs;
    })
}

/// The call without some symbols, counted from 0 for symbol 1: none of them is left in sets, word or candidate.
fn without_symbols(call: &Call, gone: &Range<usize>) -> Option<Call> {
    let mut grammar = grammar(call)?;
    let symbols = gone.start + 1..gone.end + 1;
    grammar.symbols -= gone.len() as u8;
    for bytes in &mut grammar.parts {
        let mut part = match Part::read(bytes) {
            Some(part) => part,
            None => continue,
        };
        for arc in &mut part.arcs {
            for place in [4, 12] {
                let set = u64::from_le_bytes(arc[place..place + 8].try_into().expect("8 bytes"));
                arc[place..place + 8].copy_from_slice(&without_bits(set, &symbols).to_le_bytes());
            }
        }
        // an arc that took nothing else
        part.arcs.retain(|arc| arc[4..12] != [0; 8] && arc[12..] != [0; 8]);
        *bytes = part.bytes();
    }
    let mut call = with_grammar(call, &grammar);
    let without = |list: &[u8]| list.iter().filter_map(|&symbol| renumbered(symbol, &symbols)).collect::<Vec<u8>>();
    if let Call::Optimize { word: list, .. }
    | Call::OptimizeWeights { word: list, .. }
    | Call::Evaluate { candidate: list, .. }
    | Call::Judge { word: list, .. } = &mut call
    {
        *list = without(list);
    }
    if let Call::OptimizeSets { sets, .. } = &mut call {
        for set in sets {
            *set = without_bits(*set, &symbols);
        }
    }
    let other_rows = with_tableau(&call, |tableau| {
        for row in &mut tableau.rows {
            row.candidate = without(&row.candidate);
        }
    });
    Some(other_rows.unwrap_or(call))
}

/// What is to be packed, as much shorter at the end as one of its lengths.
fn with_shorter_length(call: &Call, place: usize, less: usize) -> Option<Call> {
    let mut call = call.clone();
    let (lengths, parts) = match &mut call {
        Call::Pack { lengths, parts, .. } => (lengths, parts),
        _ => return None,
    };
    lengths[place] = lengths[place].checked_sub(less as u16)?;
    parts.truncate(parts.len().checked_sub(less)?);
    if lengths[place] == 0 && less > 0 {
        lengths.remove(place);
    }
    Some(call)
}

struct Search<'a> {
    call: Call,
    size: [u64; 5],
    fails: &'a dyn Fn(&Call) -> bool,
}

impl Search<'_> {
    /// Takes a smaller call if it fails too.
    fn try_one(&mut self, call: &mut Call) -> bool {
        let size = size(call);
        let better = size < self.size && (self.fails)(call);
        if better {
            self.call = call.clone();
            self.size = size;
        }
        better
    }

    /// Takes the call, or the same with slices refitted.
    fn attempt(&mut self, call: Option<Call>) -> bool {
        let mut call = match call {
            Some(call) => call,
            None => return false,
        };
        if self.try_one(&mut call) {
            return true;
        }
        let refitted = refitted(&self.call, &call).filter(|other| *other != call);
        refitted.map_or(false, |mut other| self.try_one(&mut other))
    }

    /// Tries every stretch of something that there is so much of, from the whole to single ones; after a stretch that is
    /// taken away, the next one stands in its place.
    fn stretches(
        &mut self,
        length: &dyn Fn(&mut Call) -> usize,
        takes_away: bool,
        without: &dyn Fn(&Call, Range<usize>) -> Option<Call>,
    ) {
        let mut stretch = length(&mut self.call);
        while stretch > 0 {
            let mut start = 0;
            let mut last = None;
            while start < length(&mut self.call) {
                let end = (start + stretch).min(length(&mut self.call));
                let call = without(&self.call, start..end);
                // where all is alike, one stretch is as good as another
                let taken = call != last && self.attempt(call.clone());
                last = call;
                if !(taken && takes_away) {
                    start += stretch;
                }
            }
            stretch /= 2;
        }
    }

    fn shorten(&mut self, length: &dyn Fn(&mut Call) -> usize, without: &dyn Fn(&Call, Range<usize>) -> Option<Call>) {
        self.stretches(length, true, without);
    }

    fn drop_machines(&mut self) {
        let length = |call: &mut Call| match machine_count(call) {
            Some(machines) => (*machines).min(6) as usize,
            None => grammar(call).map_or(0, |grammar| grammar.parts.len()),
        };
        self.shorten(&length, &|call, gone| without_machines(call, &gone));
    }

    /// How many parts there are that can be told apart.
    fn machines(&self) -> usize {
        grammar(&self.call).map_or(0, |grammar| grammar.parts.len())
    }

    fn drop_states(&mut self) {
        for machine in 0..self.machines() {
            let length = |call: &mut Call| part(call, machine).map_or(0, |part| part.states.len());
            self.shorten(&length, &|call, gone| without_states(call, machine, &gone));
        }
    }

    fn merge_states(&mut self) {
        for machine in 0..self.machines() {
            let mut high = part(&self.call, machine).map_or(0, |part| part.states.len());
            while high > 1 {
                high -= 1;
                for low in 0..high {
                    if self.attempt(with_one_state_for_two(&self.call, machine, low, high)) {
                        break;
                    }
                }
            }
        }
    }

    fn drop_arcs(&mut self) {
        for machine in 0..self.machines() {
            let length = |call: &mut Call| part(call, machine).map_or(0, |part| part.arcs.len());
            let without =
                |call: &Call, gone: Range<usize>| with_part(call, machine, |part| drop(part.arcs.drain(gone.clone())));
            self.shorten(&length, &without);
        }
    }

    /// Takes bytes away from a part that cannot be taken apart, or from what is packed with lengths that do not fit.
    fn shorten_parts(&mut self) {
        for machine in 0..self.machines() {
            let length = |call: &mut Call| match grammar(call) {
                Some(grammar) if part(call, machine).is_none() => grammar.parts[machine].len(),
                _ => 0,
            };
            let without = |call: &Call, gone: Range<usize>| {
                let mut grammar = grammar(call)?;
                grammar.parts[machine].drain(gone);
                Some(with_grammar(call, &grammar))
            };
            self.shorten(&length, &without);
        }
        if let (Call::Pack { lengths, parts, .. }, None) = (&self.call, grammar(&self.call)) {
            let mut less = parts.len();
            let places = lengths.len();
            while less > 0 {
                for place in (0..places).rev() {
                    while number_lists(&mut self.call)[0].len() > place
                        && self.attempt(with_shorter_length(&self.call, place, less))
                    {}
                }
                less /= 2;
            }
        }
    }

    fn drop_symbols(&mut self) {
        let length = |call: &mut Call| grammar(call).map_or(0, |grammar| grammar.symbols.min(63) as usize);
        self.shorten(&length, &|call, gone| without_symbols(call, &gone));
    }

    /// Zeros in the slices that are only there to be written.
    fn clear_slices(&mut self) {
        let mut call = self.call.clone();
        match &mut call {
            Call::Optimize { work, answer, .. } | Call::OptimizeSets { work, answer, .. } => {
                work.fill(0);
                answer.fill(0);
            }
            Call::OptimizeWeights { work, answer, .. } => {
                work.fill(0);
                answer.fill(0);
            }
            Call::Pack { target, .. } | Call::Join { target, .. } => target.fill(0),
            Call::Judge { work, .. } => work.fill(0),
            _ => (),
        }
        self.attempt(Some(call));
    }

    /// Lowers weights, and takes work and weights away.
    fn lower_weights(&mut self) {
        let (weights, work) = match &self.call {
            Call::OptimizeWeights { weights, work, .. } => (weights, work),
            _ => return,
        };
        let (count, numbers) = (weights.len(), work.len());
        for length in [0, numbers / 2, numbers - numbers.min(1)] {
            let mut call = self.call.clone();
            if let Call::OptimizeWeights { work, .. } = &mut call {
                work.truncate(length);
            }
            self.attempt(Some(call));
        }
        for place in (0..count).rev() {
            for new in [0, 1, 2, 3] {
                let mut call = self.call.clone();
                if let Call::OptimizeWeights { weights, .. } = &mut call {
                    weights[place] = weights[place].min(new);
                }
                if self.attempt(Some(call)) {
                    break;
                }
            }
        }
    }

    /// Takes positions away from a word of sets, and symbols from the sets.
    fn shorten_sets(&mut self) {
        let length = |call: &mut Call| match call {
            Call::OptimizeSets { sets, .. } => sets.len(),
            _ => 0,
        };
        self.shorten(&length, &|call, gone| {
            let mut call = call.clone();
            if let Call::OptimizeSets { sets, .. } = &mut call {
                sets.drain(gone);
            }
            Some(call)
        });
        for place in 0..length(&mut self.call) {
            for bit in 0..64 {
                let mut call = self.call.clone();
                if let Call::OptimizeSets { sets, .. } = &mut call {
                    sets[place] &= !(1 << bit);
                }
                self.attempt(Some(call));
            }
        }
    }

    /// Takes rows away from a list and steps from a live tableau, and lowers ids and row counts.
    fn shorten_row_lists(&mut self) {
        let length = |call: &mut Call| row_list(call).map_or(0, |rows| rows.len());
        for with_count in [true, false] {
            let without = |call: &Call, gone: Range<usize>| {
                let mut call = call.clone();
                row_list(&mut call)?.drain(gone.clone());
                match &mut call {
                    Call::Rows { used, .. } if with_count && gone.end <= *used => *used -= gone.len(),
                    _ => (),
                }
                Some(call)
            };
            self.shorten(&length, &without);
        }
        let steps = |call: &mut Call| match call {
            Call::Live { steps, .. } => steps.len(),
            _ => 0,
        };
        self.shorten(&steps, &|call, gone| {
            let mut call = call.clone();
            if let Call::Live { steps, .. } = &mut call {
                steps.drain(gone);
            }
            Some(call)
        });
        for place in 0..ids(&mut self.call).len() {
            self.lower(&|call| ids(call).get(place).map(|id| **id), &|call, new| *ids(call)[place] = new);
        }
        let used = |call: &mut Call| match call {
            Call::Rows { used, .. } => Some((*used).min(u16::MAX as usize) as u16),
            _ => None,
        };
        self.lower(&used, &|call, new| {
            if let Call::Rows { used, .. } = call {
                *used = new as usize;
            }
        });
    }

    /// Takes rows away from a tableau, symbols from its word, pairs from its rows.
    fn shorten_tableaux(&mut self) {
        let rows = |call: &mut Call| tableau(call).map_or(0, |tableau| tableau.rows.len());
        self.shorten(&rows, &|call, gone| without_rows(call, &gone));
        let places = |call: &mut Call| match call {
            Call::Judge { word, .. } => word.len(),
            _ => 0,
        };
        self.shorten(&places, &|call, gone| without_word_places(call, &gone));
        for row in 0..rows(&mut self.call) {
            let pairs = |call: &mut Call| tableau(call).map_or(0, |tableau| tableau.rows[row].candidate.len() / 2);
            self.shorten(&pairs, &|call, gone| without_pairs(call, row, &gone));
        }
    }

    /// Zeros in stretches of every list of bytes.
    fn clear_lists(&mut self) {
        for list in 0..byte_lists(&mut self.call).len() {
            let length = |call: &mut Call| byte_lists(call)[list].len();
            let cleared = |call: &Call, stretch: Range<usize>| {
                let mut other = call.clone();
                byte_lists(&mut other)[list][stretch].fill(0);
                (other != *call).then_some(other)
            };
            self.stretches(&length, false, &cleared);
        }
    }

    /// Takes elements away from every list, by twos and one by one.
    fn shorten_lists(&mut self) {
        for list in 0..number_lists(&mut self.call).len() {
            let length = |call: &mut Call| number_lists(call)[list].len();
            let without = |call: &Call, gone: Range<usize>| {
                let mut call = call.clone();
                number_lists(&mut call)[list].drain(gone);
                Some(call)
            };
            self.shorten(&length, &without);
        }
        for list in 0..byte_lists(&mut self.call).len() {
            for unit in [2, 1] {
                let length = |call: &mut Call| byte_lists(call)[list].len() / unit;
                let without = |call: &Call, gone: Range<usize>| {
                    let mut call = call.clone();
                    byte_lists(&mut call)[list].drain(unit * gone.start..unit * gone.end);
                    Some(call)
                };
                self.shorten(&length, &without);
            }
        }
    }

    /// Lowers a number in every way that may help: to 0, to 1, by a bit, by one.
    fn lower(&mut self, number: &dyn Fn(&mut Call) -> Option<u16>, set: &dyn Fn(&mut Call, u16)) {
        while let Some(old) = number(&mut self.call).filter(|&old| old > 0) {
            let without_a_bit = (0..16).rev().filter(|bit| old >> bit & 1 == 1).map(|bit| old ^ 1 << bit);
            let lowered = [0, 1].into_iter().chain(without_a_bit).chain([old - 1]).any(|new| {
                let mut call = self.call.clone();
                set(&mut call, new);
                new < old && self.attempt(Some(call))
            });
            if !lowered {
                return;
            }
        }
    }

    fn lower_bytes(&mut self) {
        for list in 0..byte_lists(&mut self.call).len() {
            for place in 0..byte_lists(&mut self.call)[list].len() {
                self.lower(&|call| byte_lists(call)[list].get(place).map(|&byte| byte as u16), &|call, new| {
                    byte_lists(call)[list][place] = new as u8;
                });
            }
        }
    }

    /// Lowers the counts of profiles and what else is a number.
    fn lower_numbers(&mut self) {
        for place in 0..6 {
            // both profiles alike first
            let mut call = self.call.clone();
            if let [first, second] = &mut profiles(&mut call)[..] {
                let both = first[place].min(second[place]);
                first[place] -= both;
                second[place] -= both;
                self.attempt(Some(call));
            }
            for profile in 0..profiles(&mut self.call).len() {
                self.lower(&|call| Some(profiles(call)[profile][place]), &|call, new| {
                    profiles(call)[profile][place] = new;
                });
            }
        }
        for list in 0..number_lists(&mut self.call).len() {
            for place in 0..number_lists(&mut self.call)[list].len() {
                self.lower(&|call| number_lists(call)[list].get(place).copied(), &|call, new| {
                    number_lists(call)[list][place] = new;
                });
            }
        }
        fn other(call: &mut Call) -> Option<&mut u8> {
            match call {
                Call::ReadPart { machine: number, .. } | Call::Pack { symbols: number, .. } => Some(number),
                _ => machine_count(call),
            }
        }
        self.lower(&|call| other(call).map(|number| *number as u16), &|call, new| {
            if let Some(number) = other(call) {
                *number = new as u8;
            }
        });
    }

    fn sort_the_ranking(&mut self) {
        let length = ranking(&mut self.call).map_or(0, |list| list.len());
        for first in 0..length {
            for second in first + 1..length {
                let mut call = self.call.clone();
                if let Some(list) = ranking(&mut call).filter(|list| second < list.len()) {
                    list.swap(first, second);
                    self.attempt(Some(call));
                }
            }
        }
    }
}
