//! Whole calls by chance.

use super::candidates::{bytes_of, damage_a_candidate, walk};
use super::cards::{any_card, any_ranking, any_word, open_card};
use super::columns::with_columns;
use super::damage::{add_states, damage_a_part, damage_a_ranking, damage_a_word, perhaps_damaged};
use super::joining::joined_at_the_limits;
use super::live::{live_table, row_call};
use super::tableaux::any_tableau;
use crate::call::Call;
use crate::card::{read_card, Card, Machine};
use crate::join::join;
use crate::optimizer::{best, Method};
use crate::random::Random;
use crate::samples::{self, set, CARD_A};
use crate::sets::best_of_sets;
use crate::weights::{best_by_weights, HEAVIEST};
use crate::Profile;

/// The first length that 16 bits do not hold.
const TOO_WIDE: usize = 65_536;

/// Makes calls by chance.
pub struct Generator {
    /// Cards A and B.
    examples: Vec<Card>,
    /// The heaviest cards, on which the search takes long.
    heaviest: Vec<Card>,
    /// How many of a hundred cards get outputs alike, or nearly.
    columns: Option<usize>,
}

impl Default for Generator {
    fn default() -> Generator {
        let read = |bytes: Vec<u8>| read_card(&bytes).expect("a card that is accepted");
        let heaviest =
            [samples::chain(), samples::chain_full(), samples::shortcuts(), samples::full(), samples::none()];
        Generator {
            examples: vec![read(CARD_A.to_vec()), read(samples::card_b())],
            heaviest: heaviest.map(read).to_vec(),
            columns: Some(25),
        }
    }
}

impl Generator {
    /// Makes no outputs alike but by chance: the calls of the corpus, whose file is kept.
    pub fn of_the_corpus() -> Generator {
        Generator { columns: None, ..Generator::default() }
    }

    /// A call of any kind.
    pub fn call(&self, random: &mut Random) -> Call {
        match random.below(100) {
            0..=19 => self.optimize(random),
            20..=27 => self.optimize_sets(random),
            28..=34 => self.optimize_weights(random),
            35..=40 => self.join(random),
            41..=50 => self.judge(random),
            51..=62 => self.evaluate(random),
            63..=68 => self.read_part(random),
            69..=76 => self.pack(random),
            77..=81 => compare(random),
            82..=83 => condition(random),
            84..=89 => find_ranking(random),
            90..=97 => row_call(random),
            _ => live_table(random),
        }
    }

    /// An accepted card, and pairs that its machines take in turn.
    pub fn card_and_candidate(&self, random: &mut Random) -> (Card, Vec<u8>) {
        let card = self.card(random);
        let pairs = random.below(30);
        let candidate = walk(random, &card, pairs);
        (card, candidate)
    }

    fn card(&self, random: &mut Random) -> Card {
        if random.percent(3) {
            self.examples[random.below(self.examples.len())].clone()
        } else if random.below(600) == 0 {
            self.heaviest[random.below(self.heaviest.len())].clone()
        } else {
            let card = any_card(random);
            match self.columns {
                Some(share) if random.percent(share) => with_columns(random, &card),
                _ => card,
            }
        }
    }

    fn optimize(&self, random: &mut Random) -> Call {
        let mut read = self.card(random);
        let mut ranking = any_ranking(random, read.machines.len());
        let mut word = any_word(random, read.symbols);
        if word.is_empty() && random.percent(50) {
            // a start state that is not final, where another is, asks for insertions
            let other_final = |machine: &&mut Machine| machine.endings[1..].iter().any(Option::is_some);
            if let Some(machine) = read.machines.iter_mut().find(other_final) {
                machine.endings[0] = None;
            }
        }
        if read.states() == 128 && random.percent(40) {
            word.resize(24, 1);
        }
        let found = best(&read, &ranking, &word);
        if found.is_none() && random.percent(60) {
            // without a candidate there is less to compare
            return self.optimize(random);
        }
        let card = perhaps_damaged(random, &read, 30);
        if random.percent(4) {
            damage_a_ranking(random, &mut ranking);
        }
        if random.percent(4) {
            damage_a_word(random, &mut word, read.symbols);
        }
        let work = work_length(random, 8 * (word.len() + 1) * read.states());
        let answer = answer_length(random, found.map_or(word.len(), |candidate| candidate.len()));
        let work = (0..work).map(|_| random.number() as u16).collect();
        Call::Optimize { method: Method::Ranked, card, ranking, word, work, answer: random.bytes(answer) }
    }

    fn optimize_sets(&self, random: &mut Random) -> Call {
        let read = self.card(random);
        let mut ranking = any_ranking(random, read.machines.len());
        let mut sets = any_sets(random, read.symbols);
        if read.states() * sets.iter().map(|set| set.count_ones() as usize).sum::<usize>() > 4_000 {
            // the heaviest take long
            sets.truncate(3);
        }
        let found = best_of_sets(&read, &ranking, &sets);
        if found.is_none() && random.percent(60) {
            return self.optimize_sets(random);
        }
        let card = perhaps_damaged(random, &read, 30);
        if random.percent(4) {
            damage_a_ranking(random, &mut ranking);
        }
        if random.percent(8) {
            damage_the_sets(random, &mut sets, read.symbols);
        }
        let work = work_length(random, 8 * (sets.len() + 1) * read.states());
        let answer = answer_length(random, found.map_or(sets.len(), |candidate| candidate.len()));
        let work = (0..work).map(|_| random.number() as u16).collect();
        Call::OptimizeSets { method: Method::Ranked, card, ranking, sets, work, answer: random.bytes(answer) }
    }

    fn optimize_weights(&self, random: &mut Random) -> Call {
        let read = self.card(random);
        let mut weights = any_weights(random, read.machines.len());
        let mut word = any_word(random, read.symbols);
        let found = best_by_weights(&read, &weights, &word);
        if found.is_none() && random.percent(60) {
            return self.optimize_weights(random);
        }
        let card = perhaps_damaged(random, &read, 30);
        if random.percent(10) {
            damage_the_weights(random, &mut weights);
        }
        if random.percent(6) {
            damage_a_word(random, &mut word, read.symbols);
        }
        let work = work_length(random, 2 * (word.len() + 1) * read.states());
        let answer = answer_length(random, found.map_or(word.len(), |candidate| candidate.len()));
        let work = (0..work).map(|_| random.number()).collect();
        Call::OptimizeWeights { card, weights, word, work, answer: random.bytes(answer) }
    }

    /// Two machines joined, one of them mostly without marks.
    fn join(&self, random: &mut Random) -> Call {
        let mut read = if random.percent(12) { joined_at_the_limits(random) } else { self.card(random) };
        let machines = read.machines.len();
        if machines == 1 && random.percent(80) {
            return self.join(random);
        }
        let (mut first, mut second) = (random.below(machines), random.below(machines));
        if first == second && random.percent(80) {
            second = (first + 1) % machines;
        }
        if random.percent(85) {
            let plain = &mut read.machines[random.one_of(&[first, second])];
            plain.arcs.iter_mut().for_each(|arc| arc.marks = 0);
            plain.endings.iter_mut().flatten().for_each(|marks| *marks = 0);
            if random.percent(5) {
                // a single mark, of an arc or of an ending
                match plain.arcs.first_mut() {
                    Some(arc) if random.percent(50) => arc.marks = 1,
                    _ => plain.endings[0] = Some(1),
                }
            }
        }
        let bytes = samples::card(read.symbols, &read.machines);
        let length = join(&bytes, first as u8, second as u8, &mut vec![0; 32_000]).unwrap_or(bytes.len());
        if random.percent(5) {
            let none = random.one_of(&[machines, 6, 7, 128, 255]);
            (first, second) = random.one_of(&[(none, second), (first, none), (none, none)]);
        }
        let target = target_length(random, length);
        let card = perhaps_damaged(random, &read, 25);
        Call::Join { card, first: first as u8, second: second as u8, target: random.bytes(target) }
    }

    fn judge(&self, random: &mut Random) -> Call {
        let read = self.card(random);
        let mut ranking = any_ranking(random, read.machines.len());
        let mut word = any_word(random, read.symbols);
        if best(&read, &ranking, &word).is_none() && random.percent(90) {
            // without a candidate there is nothing to judge
            return self.judge(random);
        }
        let tableau = any_tableau(random, &read, &ranking, &word);
        let card = perhaps_damaged(random, &read, 25);
        if random.percent(4) {
            damage_a_ranking(random, &mut ranking);
        }
        if random.percent(4) {
            damage_a_word(random, &mut word, read.symbols);
        }
        let work = work_length(random, 8 * (word.len() + 1) * read.states());
        let work = (0..work).map(|_| random.number() as u16).collect();
        Call::Judge { card, ranking, word, work, tableau }
    }

    fn evaluate(&self, random: &mut Random) -> Call {
        if random.percent(5) {
            return long_candidate(random);
        }
        let read = self.card(random);
        let card = perhaps_damaged(random, &read, 20);
        let mut candidate = match random.below(10) {
            0..=4 => {
                let ranking = any_ranking(random, read.machines.len());
                let word = any_word(random, read.symbols);
                best(&read, &ranking, &word).map_or(vec![], bytes_of)
            }
            5..=8 => {
                let pairs = random.below(30);
                walk(random, &read, pairs)
            }
            _ => {
                let most = random.one_of(&[read.symbols as usize, 63, 255]);
                (0..random.below(40)).map(|_| random.between(0, most) as u8).collect()
            }
        };
        if random.percent(30) {
            damage_a_candidate(random, &mut candidate, read.symbols);
        }
        Call::Evaluate { card, candidate }
    }

    fn read_part(&self, random: &mut Random) -> Call {
        let read = self.card(random);
        let machines = read.machines.len();
        let machine = match random.below(8) {
            0 => machines,
            1 => random.one_of(&[6, 7, 128, 255]),
            _ => random.below(machines),
        };
        Call::ReadPart { card: perhaps_damaged(random, &read, 40), machine: machine as u8 }
    }

    fn pack(&self, random: &mut Random) -> Call {
        let Card { symbols, mut machines, .. } = self.card(random);
        if random.percent(5) {
            add_states(random, &mut machines);
        }
        let mut parts: Vec<Vec<u8>> = machines.iter().map(Machine::part).collect();
        let times = random.one_of(&[0, 0, 1, 2]);
        for _ in 0..times {
            let place = random.below(parts.len());
            damage_a_part(random, symbols, &mut parts[place]);
        }
        let mut lengths: Vec<u16> = parts.iter().map(|part| part.len() as u16).collect();
        let mut parts = parts.concat();
        if random.percent(15) {
            damage_the_lengths(random, &mut lengths, &mut parts);
        }
        let symbols = if random.percent(4) { random.one_of(&[0, 64, 65, 128, 255]) } else { symbols };
        let target = target_length(random, 2 + 4 * lengths.len() + parts.len());
        Call::Pack { symbols, lengths, parts, target: random.bytes(target) }
    }
}

/// The length of a target for a card of so many bytes.
fn target_length(random: &mut Random, exact: usize) -> usize {
    match random.below(12) {
        0 => exact - 1,
        1 => exact - 2,
        2 => random.below(exact),
        3 => 0,
        4 => exact + 1,
        5 => exact + random.below(100),
        6 if random.percent(2) => random.below(exact) + TOO_WIDE,
        _ => exact,
    }
}

/// Weights of so many machines: all alike, also none and the heaviest; each far above the next; any; small ones, also 0.
fn any_weights(random: &mut Random, machines: usize) -> Vec<u32> {
    let mut weights: Vec<u32> = match random.below(6) {
        0 => vec![random.one_of(&[0, 1, 1_000, HEAVIEST]); machines],
        1 | 2 => {
            let base = random.one_of(&[2u32, 3, 20, 80]);
            (0..machines as u32).map(|place| base.saturating_pow(place).min(HEAVIEST)).collect()
        }
        3 => (0..machines).map(|_| random.between(0, HEAVIEST as usize) as u32).collect(),
        _ => (0..machines).map(|_| random.between(0, 5) as u32 * 500).collect(),
    };
    if random.percent(5) {
        weights[0] = random.one_of(&[HEAVIEST, HEAVIEST - 1]);
    }
    random.shuffle(&mut weights);
    weights
}

/// Too few weights, too many, or one that is too heavy.
fn damage_the_weights(random: &mut Random, weights: &mut Vec<u32>) {
    let machines = weights.len();
    match random.below(8) {
        0 | 1 => weights.truncate(random.one_of(&[0, machines - 1])),
        2 => weights.push(0),
        3 => weights.resize(random.one_of(&[7, 256 + machines]), 1),
        4 if random.percent(5) => weights.resize(TOO_WIDE + machines, 1),
        _ => weights[random.below(machines)] = random.one_of(&[HEAVIEST + 1, HEAVIEST + 1, u32::MAX]),
    }
}

/// Sets for the positions of a word: the symbol heard, and others that it may be.
fn any_sets(random: &mut Random, symbols: u8) -> Vec<u64> {
    let share = random.one_of(&[0, 10, 30, 60, 100]);
    let mut sets = Vec::new();
    for heard in any_word(random, symbols) {
        let others = (1..=symbols).filter(|_| random.percent(share));
        sets.push(set(others.collect::<Vec<_>>()) | 1 << heard);
    }
    sets
}

/// Too many positions, or a set that is none: refusals 8 and 25.
fn damage_the_sets(random: &mut Random, sets: &mut Vec<u64>, symbols: u8) {
    let place = random.below(sets.len().max(1));
    match random.below(6) {
        0 => sets.resize(25, 2),
        1 => sets.resize(random.between(26, 290), 2),
        2 if !sets.is_empty() => sets[place] = 0,
        3 if !sets.is_empty() => sets[place] |= 1,
        4 if !sets.is_empty() && symbols < 63 => sets[place] |= 1 << (symbols + 1),
        5 if !sets.is_empty() && symbols < 63 => sets[place] |= 1 << 63,
        _ => sets.push(random.one_of(&[0, 1])),
    }
}

/// What is needed, a little less or more, nothing, or what is enough for every card.
fn work_length(random: &mut Random, need: usize) -> usize {
    match random.below(20) {
        0 => need - 1,
        1 => random.below(need),
        2 if random.percent(20) => 0,
        3 | 4 => need + 1,
        5 => need + random.below(100),
        6 => need.max(25_600),
        7 if random.percent(20) => 25_601,
        8 if random.percent(2) => random.below(need) + TOO_WIDE,
        _ => need,
    }
}

/// Twice the pairs, a little less or more, nothing, or what is enough for every card.
fn answer_length(random: &mut Random, pairs: usize) -> usize {
    let exact = 2 * pairs;
    match random.below(20) {
        0 => exact.saturating_sub(2),
        1 => exact.saturating_sub(1),
        2 if random.percent(20) => 0,
        3 => random.below(exact + 1),
        4 => exact + 1,
        5 => exact + 2,
        6 | 7 => exact + random.below(100),
        8 => 6_398,
        9 if random.percent(20) => 6_399,
        10 if random.percent(2) => random.below(exact + 1) + TOO_WIDE,
        _ => exact,
    }
}

/// A candidate of about as many pairs as evaluation takes, on a card where it may be complete.
fn long_candidate(random: &mut Random) -> Call {
    let read = open_card(random);
    let pairs = random.one_of(&[3_197, 3_198, 3_198, 3_199, 3_199, 3_200, 3_200, 3_201, 4_000]);
    let mut candidate = walk(random, &read, pairs);
    if random.percent(10) {
        damage_a_candidate(random, &mut candidate, read.symbols);
    } else if random.percent(2) {
        candidate.resize(2 * random.below(100) + TOO_WIDE, 1);
    }
    Call::Evaluate { card: samples::card(read.symbols, &read.machines), candidate }
}

/// Lengths whose sum is not that of the parts, or is so only for numbers of 16 bits, which wrap; lengths at other places
/// than the parts are; none, or too many: refusals 1, 3 and 17.
fn damage_the_lengths(random: &mut Random, lengths: &mut Vec<u16>, parts: &mut Vec<u8>) {
    let place = random.below(lengths.len());
    match random.below(10) {
        0 => lengths[place] = lengths[place].wrapping_add(1),
        1 => lengths[place] = lengths[place].wrapping_sub(1),
        2 => parts.push(0),
        3 => {
            parts.pop();
        }
        4 => random.shuffle(lengths),
        5 => lengths.clear(),
        6 => lengths.resize(random.between(7, 9), 0),
        7 => {
            // 65,536 more, shared out among two machines
            let more = random.between(1, 65_535) as u16;
            lengths[place] = lengths[place].wrapping_add(more);
            let other = random.below(lengths.len());
            lengths[other] = lengths[other].wrapping_sub(more);
        }
        8 if random.percent(5) => {
            // parts that are as long as lengths can say
            *lengths = vec![u16::MAX; lengths.len()];
            parts.resize(lengths.len() * u16::MAX as usize, 0);
        }
        _ => {
            let other = random.below(lengths.len());
            let more = lengths[other].min(random.one_of(&[1, 20, 21]));
            lengths[other] -= more;
            lengths[place] += more;
        }
    }
}

/// A machine count, at times a wrong one.
pub fn any_count(random: &mut Random) -> u8 {
    if random.percent(8) {
        random.one_of(&[0, 7, 8, 9, 128, 255])
    } else {
        random.between(1, 6) as u8
    }
}

/// Two profiles: alike in some places, and of small or any counts.
fn any_profiles(random: &mut Random) -> (Profile, Profile) {
    let most = random.one_of(&[1, 2, 300, 65_535]);
    let alike = random.one_of(&[0, 50, 80, 100]);
    let first: Profile = std::array::from_fn(|_| random.between(0, most) as u16);
    let second = first.map(|count| match random.below(3) {
        _ if random.percent(alike) => count,
        0 => count.saturating_add(1),
        1 => count.saturating_sub(1),
        _ => random.between(0, most) as u16,
    });
    (first, second)
}

fn compare(random: &mut Random) -> Call {
    let machines = any_count(random);
    let (first, second) = any_profiles(random);
    let mut ranking = any_ranking(random, machines.min(8) as usize);
    if random.percent(15) {
        damage_a_ranking(random, &mut ranking);
    }
    Call::Compare { machines, ranking, first, second }
}

fn condition(random: &mut Random) -> Call {
    let (first, second) = any_profiles(random);
    Call::Condition { machines: any_count(random), first, second }
}

/// A condition that a ranking fits: its highest machine of those looked at is in W.
fn fitting_condition(random: &mut Random, ranking: &[u8]) -> (u8, u8) {
    let (mut fewer, mut more) = (0, 0);
    let share = random.one_of(&[20, 50]);
    for &machine in ranking {
        if random.percent(share) {
            if fewer == 0 || random.percent(40) {
                fewer |= 1 << machine;
            } else {
                more |= 1 << machine;
            }
        }
    }
    (fewer, more)
}

fn find_ranking(random: &mut Random) -> Call {
    let machines = any_count(random);
    let hidden = any_ranking(random, machines.min(7) as usize);
    let pairs = match random.below(10) {
        0 => random.between(63, 65),
        1 => random.between(10, 64),
        2 => 64,
        3 if random.percent(10) => random.between(67, 300),
        _ => random.below(8),
    };
    let unfit = random.one_of(&[0, 0, 10, 100]);
    let mut conditions = Vec::new();
    for _ in 0..pairs {
        let (fewer, more) = fitting_condition(random, &hidden);
        if random.percent(unfit) {
            conditions.extend([more, fewer]);
        } else {
            conditions.extend([fewer, more]);
        }
    }
    if random.percent(20) && !conditions.is_empty() {
        let place = random.below(conditions.len());
        match random.below(5) {
            0 => conditions.push(random.byte()),
            1 => {
                conditions.pop();
            }
            2 => conditions[place] |= conditions[place ^ 1],
            3 => conditions[place] |= 1 << machines.min(7),
            _ => conditions[place] = random.byte(),
        }
    }
    Call::FindRanking { machines, conditions }
}
