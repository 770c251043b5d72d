//! Joining machines: the new card's bytes, refusals 27, 28 and 18 with their neighbours, and what its candidates mean.

use reference::candidate::profile;
use reference::card::{read_card, read_part, Arc, Machine};
use reference::generators::Generator;
use reference::join::{has_marks, join, joined, moved};
use reference::optimizer::{best, list};
use reference::random::Random;
use reference::ranking::is_ranking;
use reference::samples::{arc, card, card_b, machine, same, set, unlike};
use reference::Refusal;

/// The joined card, the same for both orders of the two numbers.
fn joining(bytes: &[u8], first: u8, second: u8) -> Result<Vec<u8>, Refusal> {
    let mut target = vec![0; 40_000];
    let length = join(bytes, first, second, &mut target)?;
    let mut other = vec![0; 40_000];
    assert_eq!(join(bytes, second, first, &mut other), Ok(length));
    assert_eq!(target, other);
    target.truncate(length);
    Ok(target)
}

/// Card B without the marks of one machine.
fn unmarked(place: usize) -> Vec<u8> {
    let mut machines = read_card(&card_b()).unwrap().machines;
    machines[place].arcs.iter_mut().for_each(|arc| arc.marks = 0);
    card(2, &machines)
}

#[test]
fn states_and_arcs() {
    // two machines of two states each; arcs of the first with each arc of the second that takes a common pair
    let lower = Machine {
        endings: vec![Some(2), None],
        arcs: vec![arc(0, 1, 3, set([0, 1]), set([1, 2])), arc(1, 0, 0, set([2]), set([0, 1]))],
    };
    let other = Machine {
        endings: vec![Some(0), Some(0), None],
        arcs: vec![
            arc(2, 0, 0, set([1, 2]), set([1])),
            arc(0, 1, 0, set([1]), set([2])),
            arc(1, 1, 0, set([0]), set([0])),
        ],
    };
    let made = joined(&lower, &other);
    assert_eq!(made.endings, [Some(2), Some(2), None, None, None, None]);
    let expected: Vec<Arc> =
        vec![arc(2, 3, 3, set([1]), set([1])), arc(0, 4, 3, set([1]), set([2])), arc(5, 0, 0, set([2]), set([1]))];
    assert_eq!(made.arcs, expected);
}

#[test]
fn kinds() {
    let all = || arc(0, 0, 0, set([0, 1, 2]), set([0, 1, 2]));
    let one = |arc: Arc| machine(&[true], vec![arc]);
    for (first, second, kind) in [
        (all(), all(), Some(0)),
        (all(), same(all()), Some(1)),
        (same(all()), all(), Some(1)),
        (all(), unlike(all()), Some(2)),
        (unlike(all()), all(), Some(2)),
        (same(all()), same(all()), Some(1)),
        (unlike(all()), unlike(all()), Some(2)),
        (same(all()), unlike(all()), None),
        (unlike(all()), same(all()), None),
    ] {
        let kinds: Vec<u8> = joined(&one(first), &one(second)).arcs.iter().map(|arc| arc.kind).collect();
        assert_eq!(kinds, kind.into_iter().collect::<Vec<_>>());
    }
    // arcs that share only 0:0 have no common pair
    let empty = || arc(0, 0, 0, set([0]), set([0, 1]));
    let other = || arc(0, 0, 0, set([0]), set([0, 2]));
    assert!(joined(&one(empty()), &one(other())).arcs.is_empty());
    assert!(joined(&one(same(empty())), &one(empty())).arcs.is_empty());
}

#[test]
fn places() {
    for (low, high, unmarked_place) in [(0, 1, 0), (0, 2, 2), (1, 2, 1)] {
        let old = unmarked(unmarked_place);
        let new = joining(&old, low, high).unwrap();
        let (old_card, new_card) = (read_card(&old).unwrap(), read_card(&new).unwrap());
        let third = 3 - (low + high) as usize;
        assert_eq!(new_card.machines.len(), 2);
        assert_eq!(new_card.states(), old_card.states());
        let place = if third > high as usize { third - 1 } else { third };
        assert_eq!(new_card.machines[place], old_card.machines[third]);
        let (offset, length) = read_part(&new, low).unwrap();
        let part = joined(&old_card.machines[low as usize], &old_card.machines[high as usize]).part();
        assert_eq!(new[offset..offset + length], part);
    }
}

#[test]
fn refusal_27() {
    let old = unmarked(2);
    assert!(joining(&old, 0, 2).is_ok());
    assert_eq!(join(&old, 0, 0, &mut [0; 500]), Err(27));
    assert_eq!(join(&old, 0, 3, &mut [0; 500]), Err(27));
    assert_eq!(join(&old, 255, 0, &mut [0; 500]), Err(27));
    assert_eq!(join(&old, 7, 7, &mut [0; 500]), Err(27));
    // marks of arcs, of endings, of states that are never reached
    assert_eq!(join(&old, 0, 1, &mut [0; 500]), Err(27));
    assert_eq!(join(&card_b(), 0, 2, &mut [0; 500]), Err(27));
    let mut ending = read_card(&old).unwrap().machines;
    ending[2].endings[0] = Some(1);
    assert!(has_marks(&ending[2]));
    assert_eq!(join(&card(2, &ending), 0, 2, &mut [0; 500]), Err(27));
    ending[2].endings = vec![Some(0), Some(3)];
    assert_eq!(join(&card(2, &ending), 0, 2, &mut [0; 500]), Err(27));
    // a machine with marks and one without, in either order
    assert!(joining(&old, 1, 2).is_ok() && joining(&unmarked(0), 0, 1).is_ok());
    // the card comes first
    assert_eq!(join(&[], 0, 0, &mut []), Err(1));
}

#[test]
fn refusal_28() {
    let idle = |states: usize| machine(&vec![true; states], vec![]);
    for (first, second, number) in [(4, 8, 0), (32, 1, 0), (1, 32, 0), (3, 11, 28), (4, 9, 28), (11, 11, 28)] {
        let found = join(&card(1, &[idle(first), idle(second)]), 0, 1, &mut [0; 500]);
        assert_eq!(found.err().unwrap_or(0), number, "{first} and {second} states");
    }
    // arcs of one output each, and arcs of all outputs: 51 × 5, and 32 × 8
    let narrow = |count: usize| {
        let arcs = (0..count).map(|place| arc(place % 4, 0, 0, set([1]), set([1 + (place / 4) as u8])));
        machine(&[true; 4], arcs.collect())
    };
    let wide = |states: usize| {
        machine(&vec![true; states], (0..states).map(|from| arc(from, 0, 0, set([1]), set(1..20))).collect())
    };
    let (most, more) = (card(20, &[narrow(51), wide(5)]), card(20, &[narrow(32), wide(8)]));
    assert_eq!(read_card(&joining(&most, 0, 1).unwrap()).unwrap().machines[0].arcs.len(), 255);
    assert_eq!(join(&more, 0, 1, &mut [0; 9_000]), Err(28));
    // before 18
    assert_eq!(join(&more, 0, 1, &mut []), Err(28));
    assert_eq!(join(&most, 0, 1, &mut []), Err(18));
}

#[test]
fn refusal_18() {
    let old = unmarked(2);
    let new = joining(&old, 0, 2).unwrap();
    for room in [0, new.len() - 1, new.len(), new.len() + 1, new.len() + 9] {
        let mut target = vec![7; room];
        let found = join(&old, 0, 2, &mut target);
        if room < new.len() {
            assert_eq!(found, Err(18));
            assert_eq!(target, vec![7; room]);
        } else {
            assert_eq!(found, Ok(new.len()));
            assert_eq!(target[..new.len()], new);
            assert_eq!(target[new.len()..], vec![7; room - new.len()]);
        }
    }
}

/// A candidate is complete on the new card exactly when it is on the old, and its profile is the old one with the two counts
/// added: every candidate of at most four pairs for every word of at most three symbols.
#[test]
fn candidates_of_card_b() {
    for (low, high, unmarked_place) in [(0, 1, 1), (0, 2, 2), (1, 2, 2)] {
        let old = read_card(&unmarked(unmarked_place)).unwrap();
        let new = read_card(&joining(&unmarked(unmarked_place), low as u8, high as u8).unwrap()).unwrap();
        let words = (0..=3u32).flat_map(|length| (0..1u32 << length).map(move |number| (length, number)));
        let mut compared = 0;
        for (length, number) in words {
            let word: Vec<u8> = (0..length).map(|place| 1 + (number >> place & 1) as u8).collect();
            let [mut one, mut other] = [vec![], vec![]];
            list(&old, &word, 4, &mut |candidate, counts| one.push((candidate.to_vec(), moved(counts, low, high))));
            list(&new, &word, 4, &mut |candidate, counts| other.push((candidate.to_vec(), *counts)));
            assert_eq!(one, other);
            compared += one.len();
        }
        assert!(compared > 100, "{compared}");
    }
}

/// The same on cards by chance; and the best stays the best where the joined machine takes the place of the one with marks.
#[test]
fn cards_by_chance() {
    let generator = Generator::default();
    let mut random = Random::new(14);
    let (mut met, mut bests) = (0, 0);
    for _ in 0..4_000 {
        let (mut read, candidate) = generator.card_and_candidate(&mut random);
        if read.machines.len() < 2 {
            continue;
        }
        let (low, high) = (0, random.between(1, read.machines.len() - 1));
        let plain = random.one_of(&[low, high]);
        read.machines[plain].arcs.iter_mut().for_each(|arc| arc.marks = 0);
        read.machines[plain].endings.iter_mut().flatten().for_each(|marks| *marks = 0);
        let new = match joining(&card(read.symbols, &read.machines), low as u8, high as u8) {
            Ok(new) => new,
            Err(_) => continue,
        };
        let new = read_card(&new).expect("the new card is accepted");
        let pairs: Vec<(u8, u8)> = candidate.chunks(2).map(|pair| (pair[0], pair[1])).collect();
        let old_profile = profile(&read.machines, &pairs);
        assert_eq!(profile(&new.machines, &pairs), old_profile.map(|counts| moved(&counts, low, high)));
        met += old_profile.is_some() as usize;

        let mut ranking: Vec<u8> = (0..read.machines.len() as u8).collect();
        random.shuffle(&mut ranking);
        let marked = if plain == low { high } else { low };
        let renumbered = |&place: &u8| match place as usize {
            machine if machine == plain => None,
            machine if machine == marked => Some(low as u8),
            machine if machine > high => Some(place - 1),
            _ => Some(place),
        };
        let new_ranking: Vec<u8> = ranking.iter().filter_map(renumbered).collect();
        assert!(is_ranking(new.machines.len(), &new_ranking));
        let word: Vec<u8> = (0..random.below(4)).map(|_| random.between(1, read.symbols as usize) as u8).collect();
        let found = best(&read, &ranking, &word);
        assert_eq!(best(&new, &new_ranking, &word), found);
        bests += found.is_some() as usize;
    }
    assert!(met > 300 && bests > 300, "{met} complete, {bests} bests");
}
