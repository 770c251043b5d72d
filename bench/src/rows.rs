//! The rows of the table: cards with rankings and words.

use reference::card::{Arc, Machine};
use reference::random::Random;
use reference::samples::{self, arc, card, machine, same, set, unlike};

/// One call: a card, a ranking, a word.
pub struct Case {
    pub card: Vec<u8>,
    pub ranking: Vec<u8>,
    pub word: Vec<u8>,
}

pub struct Row {
    pub name: &'static str,
    pub cases: Vec<Case>,
}

/// What a machine of a random card gives marks for.
#[derive(Clone, Copy, PartialEq)]
enum Constraint {
    Insertions,
    DeletionsAndChanges,
    Shapes,
}

/// How a state of a random machine shares out the pairs: so many arcs for the insertions; so many classes of inputs, each
/// with an arc for the deletion, one for the outputs of the same class, and so many for the other outputs.
#[derive(Clone, Copy)]
struct Sharing {
    insertions: usize,
    classes: usize,
    changes: usize,
}

/// The sharing with those numbers.
const fn by(insertions: usize, classes: usize, changes: usize) -> Sharing {
    Sharing { insertions, classes, changes }
}

/// `count` sets that share out the symbols of a set by chance. Without `all` one set more is made and left out, so that its
/// symbols are in none.
fn shared_out(random: &mut Random, symbols: u64, count: usize, all: bool) -> Vec<u64> {
    let mut list: Vec<u8> = (0..64).filter(|symbol| symbols >> symbol & 1 == 1).collect();
    random.shuffle(&mut list);
    let classes = if all { count } else { count + 1 };
    (0..count).map(|class| set(list.iter().skip(class).step_by(classes).copied())).collect()
}

/// A machine with a sharing for each state. Where an arc leads to is left to chance. In one state of six some pairs are
/// taken by no arc. A constraint on shapes has no mark, one or two for each arc by chance; the others have one or two for
/// what they are about, and none else.
fn random_machine(random: &mut Random, symbols: u8, constraint: Constraint, states: &[Sharing]) -> Machine {
    let all_symbols = set(1..=symbols);
    let mut arcs: Vec<Arc> = Vec::new();
    for (from, sharing) in states.iter().enumerate() {
        let all = random.below(6) > 0;
        let mut add = |random: &mut Random, concerned, inputs, outputs| {
            let marks = match constraint {
                Constraint::Shapes => [0, 1, 1, 2][random.below(4)],
                _ if constraint == concerned => 1 + random.below(2) as u16,
                _ => 0,
            };
            arcs.push(arc(from, random.below(states.len()), marks, inputs, outputs));
        };
        for outputs in shared_out(random, all_symbols, sharing.insertions, all) {
            add(random, Constraint::Insertions, set([0]), outputs);
        }
        for class in shared_out(random, all_symbols, sharing.classes, true) {
            add(random, Constraint::DeletionsAndChanges, class, set([0]));
            add(random, Constraint::Shapes, class, class);
            for outputs in shared_out(random, all_symbols & !class, sharing.changes, all) {
                add(random, Constraint::DeletionsAndChanges, class, outputs);
            }
        }
    }
    let finals: Vec<bool> = (0..states.len()).map(|state| state == 0 || random.below(2) == 1).collect();
    machine(&finals, arcs)
}

/// A card with a constraint on insertions, one on deletions and changes, and others on shapes.
fn random_card(random: &mut Random, symbols: u8, machines: &[&[Sharing]]) -> Vec<u8> {
    let constraint = |place| match place {
        0 => Constraint::Insertions,
        1 => Constraint::DeletionsAndChanges,
        _ => Constraint::Shapes,
    };
    let machine = |(place, states): (usize, &&[Sharing])| random_machine(random, symbols, constraint(place), states);
    card(symbols, &machines.iter().enumerate().map(machine).collect::<Vec<_>>())
}

fn random_case(random: &mut Random, card: &[u8], length: usize) -> Case {
    let mut ranking: Vec<u8> = (0..card[0]).collect();
    random.shuffle(&mut ranking);
    let word = (0..length).map(|_| 1 + random.below(card[1] as usize) as u8).collect();
    Case { card: card.to_vec(), ranking, word }
}

/// K = 4, S = 20, n = 8; P is 16, 24 and 32.
fn medium() -> Vec<Case> {
    let mut random = Random::new(8);
    let (one, two, three, four) = ([by(4, 10, 2)], [by(4, 5, 2); 2], [by(3, 4, 2); 3], [by(2, 3, 2); 4]);
    let cards: [[&[Sharing]; 4]; 3] =
        [[&one, &one, &four, &four], [&one, &two, &three, &four], [&two, &two, &two, &four]];
    let mut cases = Vec::new();
    for machines in cards {
        let card = random_card(&mut random, 20, &machines);
        cases.extend((0..4).map(|_| random_case(&mut random, &card, 8)));
    }
    cases
}

/// K = 6, S = 63, n = 24, P = 128, 230 arcs a machine.
fn large() -> Vec<Case> {
    let mut random = Random::new(24);
    let (two, four) = ([by(31, 7, 10); 2], [by(9, 6, 6), by(9, 6, 6), by(10, 6, 6), by(10, 6, 6)]);
    let mut cases = Vec::new();
    for _ in 0..2 {
        let card = random_card(&mut random, 63, &[&two, &two, &two, &two, &two, &four]);
        cases.extend((0..2).map(|_| random_case(&mut random, &card, 24)));
    }
    cases
}

/// K = 3, S = 63, n = 24, P = 16: two constraints on shapes, and one against changed, new and lost sounds that is one arc of
/// kind 1 and one of kind 2 on the same sets.
fn kinds() -> Vec<Case> {
    let mut random = Random::new(10);
    let [first, second] = [(); 2].map(|_| random_machine(&mut random, 63, Constraint::Shapes, &[by(10, 6, 6); 4]));
    let any = set(0..=63);
    let faithful = machine(&[true], vec![same(arc(0, 0, 0, any, any)), unlike(arc(0, 0, 1, any, any))]);
    let card = card(63, &[first, second, faithful]);
    (0..4).map(|_| random_case(&mut random, &card, 24)).collect()
}

/// Insertions that lead down, K = 3, S = 10, n = 24, P = 128: under every ranking with the price of insertions in another place.
fn falling() -> Vec<Case> {
    let word: Vec<u8> = (0..24).map(|place| 1 + place % 10).collect();
    let case = |ranking: [u8; 3]| Case { card: samples::falling(), ranking: ranking.to_vec(), word: word.clone() };
    [[0, 1, 2], [0, 2, 1], [2, 0, 1]].map(case).into()
}

/// The cases that lines of the board's program ask for, but for the empty word, which would be measured with long ones.
fn from_lines(card: &[u8], lines: &str) -> Vec<Case> {
    let case = |line: &str| {
        let (ranking, word) = line.split_once(' ').expect("a ranking and a word");
        Case {
            card: card.to_vec(),
            ranking: ranking.bytes().map(|digit| digit - b'0').collect(),
            word: word.split(',').map(|symbol| symbol.parse().expect("a symbol")).collect(),
        }
    };
    lines.lines().filter(|line| !line.ends_with(' ')).map(case).collect()
}

pub fn rows() -> Vec<Row> {
    let row = |name, cases| Row { name, cases };
    let tag = (include_bytes!("../../demo/tag/card.bin"), include_str!("../../demo/tag/stdin"));
    let chain = include_str!("../../tests/data/chain/stdin");
    let chain_full = include_str!("../../tests/data/chain_full/stdin");
    let full = include_str!("../../tests/data/full/stdin");
    let slowest = (include_bytes!("../../tests/data/slowest/card.bin"), include_str!("../../tests/data/slowest/stdin"));
    vec![
        row("classroom", from_lines(tag.0, tag.1)),
        row("medium", medium()),
        row("large", large()),
        row("worst chain", from_lines(&samples::chain(), chain)),
        row("worst chain, full machines", from_lines(&samples::chain_full(), chain_full)),
        row("chain to the joint state behind", from_lines(&samples::chain_behind(), chain)),
        row("chain to the joint state before", from_lines(&samples::chain_before(), chain)),
        row("falling insertions", falling()),
        row("worst card, all pairs taken", from_lines(&samples::full(), full)),
        row("faithfulness by kinds", kinds()),
        row("slowest found", from_lines(slowest.0, slowest.1)),
    ]
}
