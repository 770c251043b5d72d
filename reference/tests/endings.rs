//! Ending marks: in evaluation, in the best and in tableaux; cards without them mean what they meant.

use reference::candidate::{evaluate, marks, Pair};
use reference::card::{pack, read_card, Machine};
use reference::generators::Generator;
use reference::lines::answer;
use reference::optimizer::optimize;
use reference::random::Random;
use reference::samples::{arc, card, card_b, card_b_ending, chain_ending, machine, set};
use reference::tableau::{judge, Row, Tableau, Verdict};

/// A machine with those endings.
fn ending(endings: &[Option<u16>], machine: Machine) -> Machine {
    Machine { endings: endings.to_vec(), ..machine }
}

/// One symbol; it may be put in, left as it is or taken away, each with so many marks, and the machine tells by its state
/// whether the last pair wrote it.
fn last_written(insertion: u16, change: u16, deletion: u16, endings: [Option<u16>; 2]) -> Vec<u8> {
    let arcs = |from| {
        let (empty, one) = (set([0]), set([1]));
        [arc(from, 1, insertion, empty, one), arc(from, 1, change, one, one), arc(from, 0, deletion, one, empty)]
    };
    card(1, &[ending(&endings, machine(&[true, true], [0, 1].map(arcs).concat()))])
}

#[test]
fn the_example() {
    assert_eq!(answer(&card_b(), b"012 1"), "0,0,0 1:1");
    assert_eq!(answer(&card_b_ending(), b"012 1"), "0,0,1 1:0");
    assert_eq!(answer(&card_b_ending(), b"120 1"), "1,0,0 1:1");
    assert_eq!(answer(&card_b_ending(), b"021 1"), "0,1,0 1:1 0:2");
}

#[test]
fn state_bytes() {
    for byte in 0..=255u8 {
        let mut bytes = card_b();
        bytes[17] = byte;
        assert_eq!(read_card(&bytes).err(), (byte > 16).then_some(4), "{byte}");
        // 1:1 ends in state 1
        let expected = match byte {
            0 => Err(14),
            1..=16 => Ok([byte as u16 - 1, 0, 0, 0, 0, 0]),
            _ => Err(4),
        };
        assert_eq!(evaluate(&bytes, &[1, 1]).map(|found| found.profile), expected, "{byte}");
    }
}

#[test]
fn counted_once_and_at_the_end() {
    // through state 1 twice, to an end in state 0
    assert_eq!(evaluate(&card_b_ending(), &[1, 1, 2, 2, 1, 1, 2, 2]).unwrap().profile, [0; 6]);
    assert_eq!(evaluate(&card_b_ending(), &[1, 1, 2, 2, 1, 1]).unwrap().profile, [1, 0, 0, 0, 0, 0]);
    // the candidate of no pairs ends where it starts
    let mut starting = card_b();
    starting[16] = 16;
    assert_eq!(evaluate(&starting, &[]).unwrap().profile, [15, 0, 0, 0, 0, 0]);
    assert_eq!(answer(&starting, b"012 "), "0,1,0 0:1");
    assert_eq!(answer(&starting, b"102 "), "15,0,0");
}

#[test]
fn endings_that_decide() {
    // keeping and deleting cost the same up to the end
    assert_eq!(answer(&last_written(9, 1, 1, [Some(0), Some(2)]), b"0 1"), "1 1:0");
    assert_eq!(answer(&last_written(9, 1, 1, [Some(2), Some(0)]), b"0 1"), "1 1:1");
    // fewer marks at the end for more on the way, and the other way round
    assert_eq!(answer(&last_written(9, 1, 3, [Some(0), Some(3)]), b"0 1"), "3 1:0");
    assert_eq!(answer(&last_written(9, 1, 3, [Some(0), Some(1)]), b"0 1"), "2 1:1");
    // all ways cost the same: fewest pairs, then the smallest byte string
    assert_eq!(answer(&last_written(2, 1, 2, [Some(0), Some(1)]), b"0 1"), "2 1:0");
    // inserted to avoid an ending, and not where that costs as much
    assert_eq!(answer(&last_written(1, 9, 0, [Some(2), Some(0)]), b"0 1"), "1 1:0 0:1");
    assert_eq!(answer(&last_written(2, 9, 0, [Some(2), Some(0)]), b"0 1"), "2 1:0");
    assert_eq!(answer(&last_written(1, 9, 0, [Some(2), Some(0)]), b"0 "), "1 0:1");
    assert_eq!(answer(&last_written(1, 9, 0, [None, Some(7)]), b"0 "), "8 0:1");
}

#[test]
fn the_most_that_there_can_be() {
    let found = optimize(&chain_ending(), &[0, 1], &[1; 24], 25_600, &mut [0; 6_398]).unwrap();
    assert_eq!((found.profile, found.pairs), ([48_000, 48_000, 0, 0, 0, 0], 3_199));
}

#[test]
fn tableaux() {
    let row = |counts: [u16; 3], candidate: &[u8]| Row {
        counts: [counts[0], counts[1], counts[2], 0, 0, 0],
        candidate: candidate.to_vec(),
    };
    let judged = |rows: &[Row]| {
        let tableau = Tableau { claimed: 0, rows: rows.to_vec() }.bytes();
        judge(&card_b_ending(), &[0, 1, 2], &[1], 32, &tableau)
    };
    assert_eq!(judged(&[row([1, 0, 0], &[1, 1]), row([0, 0, 1], &[1, 0])]), Ok(Verdict::AnotherRow(1)));
    assert_eq!(judged(&[row([0, 0, 1], &[1, 0]), row([1, 0, 0], &[1, 1])]), Ok(Verdict::Right));
    assert_eq!(judged(&[row([0, 0, 0], &[1, 1])]), Err(21)); // without the ending
}

#[test]
fn packing_and_reading() {
    let bytes = chain_ending();
    let read = read_card(&bytes).unwrap();
    assert_eq!(read.machines[0].endings[31], Some(15));
    let lengths: Vec<u16> = read.places.iter().map(|&(_, length)| length as u16).collect();
    let mut target = vec![0; bytes.len()];
    assert_eq!(pack(3, &lengths, &bytes[10..], &mut target), Ok(bytes.len()));
    assert_eq!(target, bytes);
}

/// The marks of the arcs taken alone, where every state byte is 0 or 1.
#[test]
fn old_cards_mean_what_they_meant() {
    let generator = Generator::default();
    let mut random = Random::new(1994);
    let mut compared = 0;
    while compared < 500 {
        let (mut read, bytes) = generator.card_and_candidate(&mut random);
        let candidate: Vec<Pair> = bytes.chunks(2).map(|pair| (pair[0], pair[1])).collect();
        for machine in &mut read.machines {
            let with_endings = marks(machine, &candidate);
            for ending in &mut machine.endings {
                *ending = ending.map(|_| 0);
            }
            let mut state = 0;
            let taken: Option<Vec<u16>> = candidate
                .iter()
                .map(|&(input, output)| {
                    let (next, marks) = machine.step(state, input, output)?;
                    state = next;
                    Some(marks)
                })
                .collect();
            let old = taken.filter(|_| machine.endings[state].is_some()).map(|marks| marks.iter().sum::<u16>());
            assert_eq!(marks(machine, &candidate), old);
            assert!(with_endings >= old);
            compared += (with_endings > old) as usize;
        }
    }
}
