//! The ten examples of the requirements, and the cards they are about.

use reference::candidate::evaluate;
use reference::card::{lay_out, read_card, read_part};
use reference::lines::{answer, run};
use reference::ranking::{condition, find_ranking};
use reference::samples::{arc, card, card_b, card_b_ending, machine, set, CARD_A};

#[test]
fn card_a_is_as_described() {
    let arcs = vec![arc(0, 0, 0, set([1]), set([1, 2]))];
    assert_eq!(card(2, &[machine(&[true], arcs)]), CARD_A);
}

#[test]
fn card_b_is_as_described() {
    assert_eq!(card_b().len(), 264);
    assert_eq!(read_card(&card_b()).unwrap().places, [(14, 124), (138, 43), (181, 83)]);
    assert_eq!(read_part(&card_b(), 1), Ok((138, 43)));
}

#[test]
fn example_1() {
    assert_eq!(answer(&CARD_A, b"0 1"), "0 1:1");
}

#[test]
fn example_2() {
    assert_eq!(answer(&CARD_A, b"0 2"), "refused 10");
}

#[test]
fn examples_3_to_5() {
    assert_eq!(answer(&card_b(), b"012 2"), "0,0,1 2:0");
    assert_eq!(answer(&card_b(), b"021 2"), "0,1,0 0:1 2:2");
    assert_eq!(answer(&card_b(), b"120 2"), "1,0,0 2:2");
}

/// Words with nothing in them.
#[test]
fn the_empty_word() {
    assert_eq!(answer(&card_b(), b"012 "), "0,0,0");
}

/// Ending marks.
#[test]
fn a_final_consonant() {
    assert_eq!(answer(&card_b_ending(), b"012 1"), "0,0,1 1:0");
}

/// Totals under a lesson's word list.
#[test]
fn closing_lines() {
    let printed = "0,0,1 2:0\n0,1,0 0:1 2:2\nanswered 2 refused 0\ntotal 0,1,1\n";
    assert_eq!(run(&card_b(), b"012 2\n021 2\n"), printed);
}

#[test]
fn example_6() {
    let mut machine = read_card(&CARD_A).unwrap().machines.remove(0);
    machine.arcs.push(arc(0, 0, 0, set([0]), set([1, 2])));
    assert_eq!(answer(&lay_out(2, &[machine.part()]), b"0 1"), "0 1:1");
}

#[test]
fn example_7() {
    let found = evaluate(&card_b(), &[0, 1, 2, 0]).unwrap();
    assert_eq!((found.profile, found.pairs, found.word_length), ([0, 1, 1, 0, 0, 0], 2, 1));
}

#[test]
fn example_8() {
    assert_eq!(condition(3, &[0, 0, 1, 0, 0, 0], &[0, 1, 0, 0, 0, 0]), Ok((0b010, 0b100)));
}

#[test]
fn example_9() {
    assert_eq!(find_ranking(3, &[]), Ok([0, 1, 2, 0, 0, 0]));
}

#[test]
fn example_10() {
    assert_eq!(find_ranking(3, &[0b100, 0b001]), Ok([1, 2, 0, 0, 0, 0]));
}
