//! Tableaux: verdicts, refusals 19, 20 and 21 with their neighbours, the order of the checks, and rows that win by the list
//! of all candidates.

use reference::candidate::{evaluate, Pair};
use reference::card::{lay_out as lay_out_card, read_card, read_machine, Card, Machine};
use reference::optimizer::{best, list};
use reference::random::Random;
use reference::ranking::harmony;
use reference::samples::{arc, card, card_b, machine, set, CARD_A};
use reference::tableau::{judge, lay_out, read_tableau, verdict, Row, Tableau, Verdict};
use reference::{Profile, Refusal};

const ONSET_TOP: [u8; 3] = [0, 1, 2];

/// A row of card B with its counts.
fn row(counts: [u16; 3], candidate: &[u8]) -> Row {
    Row { counts: [counts[0], counts[1], counts[2], 0, 0, 0], candidate: candidate.to_vec() }
}

fn deleted() -> Row {
    row([0, 0, 1], &[2, 0])
}

fn inserted() -> Row {
    row([0, 1, 0], &[0, 1, 2, 2])
}

fn kept() -> Row {
    row([1, 0, 0], &[2, 2])
}

/// The vowel of card B under a ranking.
fn judged(ranking: &[u8], claimed: u8, rows: &[Row]) -> Result<Verdict, Refusal> {
    judge(&card_b(), ranking, &[2], 32, &Tableau { claimed, rows: rows.to_vec() }.bytes())
}

/// Bytes in the place of the tableau.
fn judged_bytes(bytes: &[u8]) -> Result<Verdict, Refusal> {
    judge(&card_b(), &ONSET_TOP, &[2], 32, bytes)
}

#[test]
fn verdicts() {
    let all = [deleted(), inserted(), kept()];
    for (ranking, winner) in [([0, 1, 2], 0), ([0, 2, 1], 1), ([1, 2, 0], 2)] {
        for claimed in 0..3 {
            let expected = if claimed == winner { Verdict::Right } else { Verdict::AnotherRow(winner) };
            assert_eq!(judged(&ranking, claimed, &all), Ok(expected));
        }
    }
    assert_eq!(judged(&ONSET_TOP, 0, &[inserted(), kept()]), Ok(Verdict::NotInTheTable));
    assert_eq!(judged(&ONSET_TOP, 0, &[deleted()]), Ok(Verdict::Right));
    assert_eq!(judged(&ONSET_TOP, 0, &[kept()]), Ok(Verdict::NotInTheTable));
}

#[test]
fn rows_that_tie() {
    // the same row twice
    let rows = [kept(), deleted(), inserted(), deleted()];
    assert_eq!(judged(&ONSET_TOP, 3, &rows), Ok(Verdict::Right));
    assert_eq!(judged(&ONSET_TOP, 1, &rows), Ok(Verdict::Right));
    assert_eq!(judged(&ONSET_TOP, 2, &rows), Ok(Verdict::AnotherRow(1)));
    // another candidate with the best profile: more pairs, a greater byte string
    let free = card(2, &[machine(&[true], vec![arc(0, 0, 0, set([0, 1, 2]), set([1, 2]))])]);
    let rows = [[1, 2, 0, 1], [1, 2, 1, 2]].map(|candidate| Row { counts: [0; 6], candidate: candidate.to_vec() });
    let tableau = |row: &Row| Tableau { claimed: 0, rows: vec![row.clone()] }.bytes();
    assert_eq!(judge(&free, &[0], &[1], 16, &tableau(&rows[0])), Ok(Verdict::Right));
    assert_eq!(judge(&free, &[0], &[1, 1], 24, &tableau(&rows[1])), Ok(Verdict::Right));
}

#[test]
fn the_empty_word() {
    let rows = [row([0, 1, 0], &[0, 1]), row([0, 0, 0], &[])];
    let tableau = |claimed| Tableau { claimed, rows: rows.to_vec() }.bytes();
    assert_eq!(judge(&card_b(), &ONSET_TOP, &[], 16, &tableau(1)), Ok(Verdict::Right));
    assert_eq!(judge(&card_b(), &ONSET_TOP, &[], 16, &tableau(0)), Ok(Verdict::AnotherRow(1)));
    assert_eq!(judge(&card_b(), &ONSET_TOP, &[], 15, &tableau(0)), Err(9));
}

#[test]
fn refusal_19() {
    let good = Tableau { claimed: 0, rows: vec![deleted(), kept()] }.bytes();
    assert_eq!(good.len(), 10 + 14 + 14);
    assert_eq!(judged_bytes(&good), Ok(Verdict::Right));
    // too short for its table, cut off, bytes past the end
    for length in 0..good.len() {
        assert_eq!(judged_bytes(&good[..length]), Err(19), "{length} bytes");
    }
    assert_eq!(judged_bytes(&[&good[..], &[0]].concat()), Err(19));
    // rows: 1 to 32
    assert_eq!(judged_bytes(&[0, 0]), Err(19));
    assert_eq!(judged(&ONSET_TOP, 31, &vec![deleted(); 32]), Ok(Verdict::Right));
    assert_eq!(judged(&ONSET_TOP, 0, &vec![deleted(); 33]), Err(19));
    // the claimed row is below R
    assert_eq!(judged(&ONSET_TOP, 1, &[deleted(), kept()]), Ok(Verdict::AnotherRow(0)));
    assert_eq!(judged(&ONSET_TOP, 2, &[deleted(), kept()]), Err(19));
    // offsets and lengths
    for place in 2..10 {
        for change in [1u8, 255] {
            let mut bytes = good.clone();
            bytes[place] = bytes[place].wrapping_add(change);
            assert_eq!(judged_bytes(&bytes), Err(19), "byte {place}");
        }
    }
    let mut swapped = good.clone();
    for place in 2..6 {
        swapped.swap(place, place + 4);
    }
    assert_eq!(judged_bytes(&swapped), Err(19));
    let mut gap = good.clone();
    gap.insert(10, 0);
    gap[2] += 1;
    gap[6] += 1;
    assert_eq!(judged_bytes(&gap), Err(19));
    // 10 + 65,535 is not 9
    assert_eq!(judged_bytes(&[&[2, 0, 10, 0, 255, 255, 9, 0, 12, 0][..], &[0; 65_535]].concat()), Err(19));
    // a row of 12 bytes has the candidate of no pairs; one of 11 is broken
    assert_eq!(judged_bytes(&lay_out(0, &[vec![0; 12]])), Err(20));
    assert_eq!(judged_bytes(&lay_out(0, &[vec![0; 11]])), Err(19));
    assert_eq!(judged_bytes(&lay_out(0, &[deleted().bytes(), vec![0; 11]])), Err(19));
    // unused counts
    for place in 3..6 {
        let mut counted = deleted();
        counted.counts[place] = 1;
        assert_eq!(judged(&ONSET_TOP, 0, &[counted]), Err(19));
    }
    let six = card(2, &vec![machine(&[true], vec![arc(0, 0, 3, set([1]), set([1]))]); 6]);
    let full = Tableau { claimed: 0, rows: vec![Row { counts: [3; 6], candidate: vec![1, 1] }] };
    assert_eq!(judge(&six, &[5, 4, 3, 2, 1, 0], &[1], 16, &full.bytes()), Ok(Verdict::Right));
}

#[test]
fn refusal_20() {
    let with =
        |candidate: &[u8]| judged(&ONSET_TOP, 0, &[deleted(), Row { candidate: candidate.to_vec(), ..deleted() }]);
    assert_eq!(with(&[2, 0]), Ok(Verdict::Right));
    assert_eq!(with(&[2]), Err(20)); // odd
    assert_eq!(with(&[2, 0, 0, 0]), Err(20)); // 0:0
    assert_eq!(with(&[2, 3]), Err(20)); // a symbol over S
    assert_eq!(with(&[2, 1]), Err(20)); // not complete
    assert_eq!(with(&[1, 0]), Err(20)); // other words
    assert_eq!(with(&[2, 0, 2, 0]), Err(20));
    assert_eq!(with(&[]), Err(20));
    assert_eq!(with(&[2, 2]), Err(21)); // a candidate for the word
    let inserting = card(1, &[machine(&[true], vec![arc(0, 0, 0, set([0]), set([1]))])]);
    let pairs =
        |count: usize| Tableau { claimed: 0, rows: vec![Row { counts: [0; 6], candidate: [0, 1].repeat(count) }] };
    assert_eq!(judge(&inserting, &[0], &[], 8, &pairs(3_199).bytes()), Ok(Verdict::Right));
    assert_eq!(judge(&inserting, &[0], &[], 8, &pairs(3_200).bytes()), Err(20));
}

#[test]
fn refusal_21() {
    let with = |counts: [u16; 3]| judged(&ONSET_TOP, 0, &[kept(), row(counts, &[2, 0])]);
    assert_eq!(with([0, 0, 1]), Ok(Verdict::AnotherRow(1)));
    for counts in [[0, 0, 0], [0, 0, 2], [1, 0, 1], [0, 1, 0], [0, 0, 257]] {
        assert_eq!(with(counts), Err(21));
    }
}

/// Each check for all rows before the next, whatever row it meets.
#[test]
fn the_order_of_the_checks() {
    let unused = Row { counts: [0, 0, 1, 9, 0, 0], ..deleted() };
    let candidate = row([0, 0, 1], &[1, 0]);
    let counts = row([0, 0, 2], &[2, 0]);
    let both = row([7, 7, 7], &[1, 0]);
    for (rows, first) in [
        (vec![counts.clone(), candidate.clone()], 20),
        (vec![candidate.clone(), counts.clone()], 20),
        (vec![counts.clone(), unused.clone()], 19),
        (vec![candidate.clone(), unused.clone()], 19),
        (vec![deleted(), both], 20),
        (vec![counts.clone(), candidate, unused], 19),
        (vec![deleted(), counts.clone()], 21),
    ] {
        assert_eq!(judged(&ONSET_TOP, 0, &rows), Err(first));
        // the claimed row comes with the layout
        assert_eq!(judged(&ONSET_TOP, rows.len() as u8, &rows), Err(19));
    }
    // 1 to 9 come first
    let broken = [0];
    assert_eq!(judge(&[], &[], &[], 0, &broken), Err(1));
    assert_eq!(judge(&CARD_A, &[1], &[3], 0, &broken), Err(7));
    assert_eq!(judge(&CARD_A, &[0], &[3], 0, &broken), Err(8));
    assert_eq!(judge(&CARD_A, &[0], &[1], 15, &broken), Err(9));
    assert_eq!(judge(&CARD_A, &[0], &[1], 16, &broken), Err(19));
    // a word without a candidate has no row that passes 20
    let no_candidate = |candidate: &[u8]| {
        let rows = vec![Row { counts: [0; 6], candidate: candidate.to_vec() }];
        judge(&CARD_A, &[0], &[2], 16, &Tableau { claimed: 0, rows }.bytes())
    };
    assert_eq!(no_candidate(&[2, 2]), Err(20));
    assert_eq!(no_candidate(&[]), Err(20));
}

#[test]
fn reading_what_is_written() {
    let tableau = Tableau { claimed: 1, rows: vec![deleted(), inserted(), kept()] };
    assert_eq!(read_tableau(&tableau.bytes(), 3), Ok(tableau.clone()));
    assert_eq!(read_tableau(&tableau.bytes(), 2), Err(19)); // the third count is unused then
}

/// A card of one or two machines, one or two symbols and at most three joined states.
fn small_card(random: &mut Random) -> Card {
    let symbols = 1 + random.below(2) as u8;
    let sets = (1 << (symbols + 1)) - 1;
    let states = random.one_of(&[[1, 1], [2, 1], [1, 3], [3, 1]]);
    let parts: Vec<Vec<u8>> = states[..1 + random.below(2)]
        .iter()
        .map(|&states| {
            let endings = (0..states).map(|_| random.one_of(&[None, Some(0), Some(0), Some(1), Some(2)])).collect();
            let mut made = Machine { endings, arcs: vec![] };
            for _ in 0..2 + random.below(8 * states) {
                let (from, to, marks) = (random.below(states), random.below(states), random.below(3) as u16);
                made.arcs.push(arc(from, to, marks, 1 + random.below(sets) as u64, 1 + random.below(sets) as u64));
                if read_machine(&made.part(), symbols).is_err() {
                    made.arcs.pop(); // it clashes
                }
            }
            made.part()
        })
        .collect();
    read_card(&lay_out_card(symbols, &parts)).expect("a card that is accepted")
}

/// A row wins when no complete candidate for the word has a better profile: by listing them, on small cards.
#[test]
fn verdicts_by_listing() {
    let mut random = Random::new(2018);
    let mut met = [0; 3];
    for _ in 0..3_000 {
        let read = small_card(&mut random);
        let word: Vec<u8> = (0..random.below(3)).map(|_| 1 + random.below(read.symbols as usize) as u8).collect();
        let mut ranking: Vec<u8> = (0..read.machines.len() as u8).collect();
        random.shuffle(&mut ranking);
        // the best passes no node twice
        let most = (word.len() + 1) * read.states() - 1;
        let mut candidates: Vec<(Vec<Pair>, Profile)> = Vec::new();
        list(&read, &word, most, &mut |candidate, profile| candidates.push((candidate.to_vec(), *profile)));
        if candidates.is_empty() {
            assert_eq!(best(&read, &ranking, &word), None);
            continue;
        }
        let some: Vec<_> =
            (0..random.between(1, 5)).map(|_| candidates[random.below(candidates.len())].clone()).collect();
        let bytes = |pairs: &[Pair]| pairs.iter().flat_map(|&(input, output)| [input, output]).collect::<Vec<u8>>();
        let rows: Vec<Row> =
            some.iter().map(|(pairs, counts)| Row { counts: *counts, candidate: bytes(pairs) }).collect();
        let card = card(read.symbols, &read.machines);
        for row in &rows {
            assert_eq!(evaluate(&card, &row.candidate).unwrap().profile, row.counts);
        }
        let wins: Vec<bool> = rows
            .iter()
            .map(|row| !candidates.iter().any(|(_, other)| harmony(&ranking, other, &row.counts).is_lt()))
            .collect();
        let claimed = random.below(rows.len()) as u8;
        let expected = verdict(claimed, &wins);
        met[match expected {
            Verdict::Right => 0,
            Verdict::AnotherRow(_) => 1,
            Verdict::NotInTheTable => 2,
        }] += 1;
        let work = 8 * (word.len() + 1) * read.states();
        assert_eq!(judge(&card, &ranking, &word, work, &Tableau { claimed, rows }.bytes()), Ok(expected));
    }
    assert!(met.iter().all(|&times| times > 100), "{met:?}");
}
