//! Arcs that the answer does not use: without one of them a card gives the word the same answer and profile.

use reference::candidate::Evaluation;
use reference::card::{Card, Machine};
use reference::generators::Generator;
use reference::optimizer::{optimize_by, Method};
use reference::random::Random;
use reference::samples::{card, card_b, set};
use reference::sets::optimize_sets;

const BOTH: [Method; 2] = [Method::Ranked, Method::Cull];

/// Result and pairs for a word with sets, if there is an answer: the same from both engines.
fn answered(bytes: &[u8], ranking: &[u8], sets: &[u64]) -> Option<(Evaluation, Vec<u8>)> {
    let [first, second] = BOTH.map(|method| {
        let mut answer = [0; 6_398];
        let found = optimize_sets(method, bytes, ranking, sets, 25_600, &mut answer).ok()?;
        let pairs = answer[..2 * found.pairs].to_vec();
        Some((found, pairs))
    });
    assert_eq!(first, second);
    first
}

/// The machine and place of each arc that a candidate travels, or of each that it does not.
fn arcs(machines: &[Machine], pairs: &[u8], travelled: bool) -> Vec<(usize, usize)> {
    let mut list = Vec::new();
    for (number, machine) in machines.iter().enumerate() {
        let used = machine.travelled(pairs);
        let places = (0..machine.arcs.len())
            .filter(|&place| used.iter().any(|arc| std::ptr::eq(*arc, &machine.arcs[place])) == travelled);
        list.extend(places.map(|place| (number, place)));
    }
    list
}

/// The card without one arc.
fn without(read: &Card, (machine, place): (usize, usize)) -> Vec<u8> {
    let mut machines = read.machines.clone();
    machines[machine].arcs.remove(place);
    card(read.symbols, &machines)
}

#[test]
fn trimmed_cards() {
    let generator = Generator::default();
    let mut random = Random::new(12);
    let (mut trimmed, mut changed) = (0, 0);
    for round in 0..400 {
        let (read, _) = generator.card_and_candidate(&mut random);
        if read.states() > 40 {
            continue;
        }
        let bytes = card(read.symbols, &read.machines);
        let mut ranking: Vec<u8> = (0..read.machines.len() as u8).collect();
        random.shuffle(&mut ranking);
        // words of single symbols, and words with doubtful ones
        let mut any_set = || {
            let heard = random.between(1, read.symbols as usize) as u8;
            let other = random.between(1, read.symbols as usize) as u8;
            set([heard]) | if round % 2 == 0 { 0 } else { set([other]) }
        };
        let sets: Vec<u64> = (0..round % 5).map(|_| any_set()).collect();
        let answer = match answered(&bytes, &ranking, &sets) {
            Some(answer) => answer,
            None => continue,
        };
        let mut unused = arcs(&read.machines, &answer.1, false);
        random.shuffle(&mut unused);
        for &arc in unused.iter().take(4) {
            assert_eq!(answered(&without(&read, arc), &ranking, &sets), Some(answer.clone()));
            trimmed += 1;
        }
        // an arc that it does travel is missed
        if let Some(&arc) = arcs(&read.machines, &answer.1, true).first() {
            let other = answered(&without(&read, arc), &ranking, &sets);
            assert_ne!(other.map(|(_, pairs)| pairs), Some(answer.1));
            changed += 1;
        }
    }
    assert!(trimmed > 500 && changed > 100, "{trimmed} trimmed, {changed} changed");
}

/// Every arc of card B that a form taught does not use, one at a time, in the ordinary call.
#[test]
fn card_b_trimmed() {
    let read = reference::card::read_card(&card_b()).unwrap();
    for (ranking, word) in [([0, 1, 2], [2]), ([0, 2, 1], [2]), ([1, 2, 0], [2]), ([2, 1, 0], [1])] {
        let [first, second] = BOTH.map(|method| {
            let ask = |bytes: &[u8]| {
                let mut answer = [7; 20];
                let found = optimize_by(method, bytes, &ranking, &word, 100, &mut answer).unwrap();
                (found, answer)
            };
            let (found, answer) = ask(&card_b());
            let unused = arcs(&read.machines, &answer[..2 * found.pairs], false);
            for &arc in &unused {
                assert_eq!(ask(&without(&read, arc)), (found.clone(), answer));
            }
            unused.len()
        });
        assert!(first == second && first >= 6, "{first} unused");
    }
}
