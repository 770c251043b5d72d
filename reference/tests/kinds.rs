//! Kinds of arcs: what each takes, cards with fewer arcs for the same, and old cards.

use reference::candidate::evaluate;
use reference::card::{pack, read_card, Arc, Machine};
use reference::generators::Generator;
use reference::lines::answer;
use reference::random::Random;
use reference::samples::{arc, card, card_b, card_b_kinds, machine, same, set, unlike};

#[test]
fn what_is_taken() {
    let any = arc(0, 0, 0, set([0, 1, 2]), set([0, 1, 2]));
    for (input, output) in (0..3).flat_map(|input| (0..3).map(move |output| (input, output))) {
        assert!(any.takes(input, output));
        assert_eq!(same(any.clone()).takes(input, output), input == output);
        assert_eq!(unlike(any.clone()).takes(input, output), input != output);
    }
    // insertions and deletions are unlike
    let on = |arc: Arc| card(2, &[machine(&[true], vec![arc])]);
    assert!(evaluate(&on(unlike(any.clone())), &[0, 1, 2, 0, 1, 2]).is_ok());
    assert_eq!(evaluate(&on(unlike(any.clone())), &[1, 1]), Err(14));
    assert!(evaluate(&on(same(any.clone())), &[1, 1, 2, 2]).is_ok());
    for candidate in [[0, 1], [1, 0], [1, 2]] {
        assert_eq!(evaluate(&on(same(any.clone())), &candidate), Err(14));
    }
    // 0:0 is no pair, whatever the kind
    assert_eq!(evaluate(&on(same(any)), &[0, 0]), Err(13));
    // sets with no symbol in common
    assert_eq!(answer(&on(same(arc(0, 0, 0, set([1]), set([2])))), b"0 1"), "refused 10");
}

#[test]
fn fewer_arcs_for_the_same() {
    assert_eq!(card_b().len() - card_b_kinds().len(), 20);
    for ranking in ["012", "021", "102", "120", "201", "210"] {
        for word in ["", "1", "2", "1,1", "1,2", "2,1", "2,2", "1,2,1", "2,1,2", "2,2,2,2"] {
            let line = format!("{ranking} {word}");
            assert_eq!(answer(&card_b(), line.as_bytes()), answer(&card_b_kinds(), line.as_bytes()));
        }
    }
    // a constraint against changed sounds over 63 symbols, in two arcs
    let all = set(1..64);
    let arcs = vec![same(arc(0, 0, 0, all, all)), unlike(arc(0, 0, 1, all, all))];
    let changed = card(63, &[machine(&[true], arcs)]);
    assert_eq!(answer(&changed, b"0 63,1,63"), "0 63:63 1:1 63:63");
    assert_eq!(evaluate(&changed, &[63, 1, 1, 1, 2, 3]).unwrap().profile[0], 2);
}

#[test]
fn packing_and_reading() {
    let bytes = card_b_kinds();
    let read = read_card(&bytes).unwrap();
    assert_eq!(read.machines[2].arcs.iter().map(|arc| arc.kind).collect::<Vec<_>>(), [1, 2, 2]);
    let lengths: Vec<u16> = read.places.iter().map(|&(_, length)| length as u16).collect();
    let mut target = vec![0; bytes.len()];
    assert_eq!(pack(2, &lengths, &bytes[14..], &mut target), Ok(bytes.len()));
    assert_eq!(target, bytes);
}

/// Where every kind is 0 an arc takes the pairs of its sets; and every arc can be split in its equal and its unlike pairs.
#[test]
fn old_cards_mean_what_they_meant() {
    let generator = Generator::default();
    let mut random = Random::new(63);
    let mut split_cards = 0;
    for _ in 0..400 {
        let (mut read, candidate) = generator.card_and_candidate(&mut random);
        for arc in read.machines.iter_mut().flat_map(|machine| &mut machine.arcs) {
            let (input, output) = (random.below(64) as u8, random.below(64) as u8);
            let in_sets = arc.inputs >> input & 1 == 1 && arc.outputs >> output & 1 == 1;
            assert_eq!(Arc { kind: 0, ..arc.clone() }.takes(input, output), in_sets);
        }
        let split: Vec<Machine> = read
            .machines
            .iter()
            .map(|machine| {
                let parts = |arc: &Arc| match arc.kind {
                    0 => vec![same(arc.clone()), unlike(arc.clone())],
                    _ => vec![arc.clone()],
                };
                Machine { arcs: machine.arcs.iter().flat_map(parts).collect(), ..machine.clone() }
            })
            .collect();
        if split.iter().all(|machine| machine.arcs.len() <= 255) {
            split_cards += 1;
            let (old, new) = (card(read.symbols, &read.machines), card(read.symbols, &split));
            assert_eq!(evaluate(&new, &candidate), evaluate(&old, &candidate));
        }
    }
    assert!(split_cards > 200);
}
