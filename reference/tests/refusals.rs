//! Every row of the refusal table with its neighbours, and the order of the checks.

use reference::candidate::evaluate;
use reference::card::{lay_out, pack, read_card, read_part, Arc};
use reference::optimizer::optimize;
use reference::ranking::{compare, condition, find_ranking};
use reference::samples::{arc, card, card_b, chain, machine, same, set, unlike, CARD_A};

/// The refusal of a card, or 0.
fn number(card: &[u8]) -> u8 {
    read_card(card).err().unwrap_or(0)
}

/// Card A with another byte at some places.
fn card_a(changes: &[(usize, u8)]) -> Vec<u8> {
    let mut bytes = CARD_A.to_vec();
    for &(place, byte) in changes {
        bytes[place] = byte;
    }
    bytes
}

/// A card of machines with so many states, all final and without arcs.
fn idle(states: &[usize]) -> Vec<u8> {
    card(1, &states.iter().map(|&count| machine(&vec![true; count], vec![])).collect::<Vec<_>>())
}

/// The call of the optimizer with work and answer slices that are long enough.
fn call(card: &[u8], ranking: &[u8], word: &[u8]) -> u8 {
    optimize(card, ranking, word, 25_600, &mut [0; 6_398]).err().unwrap_or(0)
}

#[test]
fn refusal_1() {
    assert_eq!(number(&[]), 1);
    assert_eq!(number(&[1]), 1);
    assert_eq!(number(&[1, 2]), 2);
    assert_eq!(number(&card_a(&[(0, 0)])), 1);
    assert_eq!(number(&idle(&[1, 1, 1, 1, 1, 1])), 0);
    assert_eq!(number(&idle(&[1, 1, 1, 1, 1, 1, 1])), 1);
    assert_eq!(number(&card_a(&[(1, 0)])), 1);
    assert_eq!(number(&card_a(&[(1, 1)])), 4); // out holds symbol 2
    assert_eq!(number(&card_a(&[(1, 63)])), 0);
    assert_eq!(number(&card_a(&[(1, 64)])), 1);
}

#[test]
fn refusal_2() {
    assert_eq!(number(&CARD_A), 0);
    assert_eq!(number(&[&CARD_A[..], &[0]].concat()), 2);
    assert_eq!(number(&CARD_A[..28]), 2);
    assert_eq!(number(&CARD_A[..5]), 2);
    assert_eq!(number(&card_a(&[(2, 5)])), 2);
    assert_eq!(number(&card_a(&[(2, 7)])), 2);
    assert_eq!(number(&card_a(&[(4, 22)])), 2);
    assert_eq!(number(&card_a(&[(4, 24)])), 2);
    assert_eq!(number(&card_a(&[(2, 5), (4, 24)])), 2); // from the table's last byte to the end
    let mut gap = CARD_A.to_vec();
    gap.insert(6, 0);
    gap[2] = 7;
    assert_eq!(number(&gap), 2);
    // card B with the second offset too high, with a byte between the first two parts, and with the last two swapped
    let mut card = card_b();
    card[6] += 1;
    assert_eq!(number(&card), 2);
    card.insert(138, 0);
    card[10] += 1;
    assert_eq!(number(&card), 2);
    let mut card = card_b();
    for place in 6..10 {
        card.swap(place, place + 4);
    }
    assert_eq!(number(&card), 2);
    // a part of no bytes is in its place, and is met by 3
    assert_eq!(number(&[1, 2, 6, 0, 0, 0]), 3);
    // 10 + 65,535 is not 9
    assert_eq!(number(&[&[2, 2, 10, 0, 255, 255, 9, 0, 1, 0][..], &[0; 65_535]].concat()), 2);
}

#[test]
fn refusal_3() {
    let part = |bytes: &[u8]| number(&lay_out(2, &[bytes.to_vec()]));
    assert_eq!(part(&[]), 3);
    assert_eq!(part(&[1]), 3);
    assert_eq!(part(&[1, 0]), 3);
    assert_eq!(part(&[1, 0, 1]), 0);
    assert_eq!(part(&[1, 0, 1, 1]), 3);
    assert_eq!(part(&[0, 0]), 3);
    assert_eq!(number(&card_a(&[(6, 0)])), 3);
    assert_eq!(number(&idle(&[32])), 0);
    assert_eq!(number(&idle(&[33])), 3);
    assert_eq!(number(&card_a(&[(7, 0)])), 3);
    assert_eq!(number(&card_a(&[(7, 2)])), 3);
}

#[test]
fn refusal_4() {
    for (place, accepted, refused) in [
        (8, 16, 17),  // state byte
        (9, 0, 1),    // from
        (10, 0, 1),   // to
        (11, 15, 16), // marks
        (12, 1, 3),   // kind
        (12, 2, 255),
        (13, 2, 0), // in set
        (13, 7, 8),
        (21, 6, 0), // out set
        (21, 7, 8),
    ] {
        assert_eq!(number(&card_a(&[(place, accepted)])), 0, "byte {place}");
        assert_eq!(number(&card_a(&[(place, refused)])), 4, "byte {place}");
    }
    // the highest bit, with as many symbols and with one fewer
    for place in [20, 28] {
        assert_eq!(number(&card_a(&[(1, 63), (place, 128)])), 0);
        assert_eq!(number(&card_a(&[(1, 62), (place, 128)])), 4);
        assert_eq!(number(&card_a(&[(1, 62), (place, 64)])), 0);
    }
    // an arc to the last state, and past it
    assert_eq!(number(&card(2, &[machine(&[true, true], vec![arc(1, 1, 0, 1, 2)])])), 0);
    assert_eq!(number(&card(2, &[machine(&[true, true], vec![arc(1, 2, 0, 1, 2)])])), 4);
    assert_eq!(number(&card(2, &[machine(&[true, true], vec![arc(2, 1, 0, 1, 2)])])), 4);
}

#[test]
fn refusal_5() {
    let two = |first: Arc, second: Arc| number(&card(2, &[machine(&[true, true], vec![first, second])]));
    let a = arc(0, 0, 0, set([1]), set([1, 2]));
    assert_eq!(two(a.clone(), a.clone()), 5);
    assert_eq!(two(a.clone(), Arc { to: 1, marks: 3, ..a.clone() }), 5);
    assert_eq!(two(a.clone(), Arc { from: 1, ..a.clone() }), 0);
    assert_eq!(two(a.clone(), arc(0, 0, 0, set([1, 2]), set([0, 2]))), 5); // both take 1:2
    assert_eq!(two(a.clone(), arc(0, 0, 0, set([2]), set([1, 2]))), 0);
    assert_eq!(two(a.clone(), arc(0, 0, 0, set([1, 2]), set([0]))), 0);
    // 0:0 is no pair
    assert_eq!(two(arc(0, 0, 0, set([0, 1]), set([0])), arc(0, 0, 0, set([0, 2]), set([0]))), 0);
    assert_eq!(two(arc(0, 0, 0, set([0, 1]), set([0])), arc(0, 0, 0, set([0, 1]), set([0]))), 5);
    assert_eq!(two(arc(0, 0, 0, set([0]), set([0, 1])), arc(0, 0, 0, set([0]), set([0, 2]))), 0);
    assert_eq!(two(arc(0, 0, 0, set([0]), set([0, 1])), arc(0, 0, 0, set([0]), set([0, 1]))), 5);
    assert_eq!(two(arc(0, 0, 0, set([0]), set([0])), arc(0, 0, 0, set([0]), set([0]))), 0);
    // by the pairs taken: kinds 1 and 2 with the same sets do not clash
    assert_eq!(two(same(a.clone()), unlike(a.clone())), 0);
    assert_eq!(two(same(a.clone()), same(a.clone())), 5);
    assert_eq!(two(unlike(a.clone()), unlike(a.clone())), 5);
    assert_eq!(two(a.clone(), same(a.clone())), 5);
    assert_eq!(two(a.clone(), unlike(a.clone())), 5);
    // sets without a pair of that kind
    let unequal = same(arc(0, 0, 0, set([1]), set([2])));
    assert_eq!(two(unequal.clone(), unequal.clone()), 0);
    assert_eq!(two(a.clone(), unequal), 0);
    let equal = unlike(arc(0, 0, 0, set([1]), set([1])));
    assert_eq!(two(a.clone(), equal), 0);
    // kinds 0 and 1 that share only 0:0
    assert_eq!(two(arc(0, 0, 0, set([0, 1]), set([0])), same(arc(0, 0, 0, set([0, 1]), set([0, 1])))), 0);
    assert_eq!(two(arc(0, 0, 0, set([0, 1]), set([0, 1])), same(arc(0, 0, 0, set([0, 1]), set([0, 1])))), 5);
    // the last two of three arcs
    let b = arc(0, 0, 0, set([2]), set([2]));
    assert_eq!(number(&card(2, &[machine(&[true], vec![a, b.clone(), b])])), 5);
}

#[test]
fn refusal_6() {
    assert_eq!(number(&idle(&[4, 32])), 0);
    assert_eq!(number(&idle(&[5, 32])), 6);
    assert_eq!(number(&idle(&[2, 2, 2, 2, 2, 4])), 0);
    assert_eq!(number(&idle(&[2, 2, 2, 2, 2, 5])), 6);
    assert_eq!(number(&idle(&[32, 32, 32, 32, 32, 32])), 6);
}

#[test]
fn refusal_7() {
    for ranking in [&[0, 1, 1][..], &[0, 1], &[0, 1, 2, 0], &[0, 1, 2, 3], &[0, 1, 3], &[1, 2, 3], &[]] {
        assert_eq!(call(&card_b(), ranking, &[2]), 7);
        assert_eq!(compare(3, ranking, &[0; 6], &[0; 6]), Err(7));
    }
    assert_eq!(call(&card_b(), &[2, 0, 1], &[2]), 0);
    assert!(compare(3, &[2, 0, 1], &[0; 6], &[0; 6]).is_ok());
}

#[test]
fn refusal_8() {
    assert_eq!(call(&CARD_A, &[0], &[3]), 8);
    assert_eq!(call(&CARD_A, &[0], &[2]), 10);
    assert_eq!(call(&CARD_A, &[0], &[0]), 8);
    assert_eq!(call(&CARD_A, &[0], &[1, 1, 0]), 8);
    assert_eq!(call(&CARD_A, &[0], &[]), 0);
    assert_eq!(call(&CARD_A, &[0], &[1; 24]), 0);
    assert_eq!(call(&CARD_A, &[0], &[1; 25]), 8);
}

#[test]
fn refusal_9() {
    let with = |card: &[u8], ranking: &[u8], word: &[u8], work| {
        optimize(card, ranking, word, work, &mut [0; 6_398]).err().unwrap_or(0)
    };
    assert_eq!(with(&CARD_A, &[0], &[1], 15), 9);
    assert_eq!(with(&CARD_A, &[0], &[1], 16), 0);
    assert_eq!(with(&card_b(), &[0, 1, 2], &[1, 2], 47), 9);
    assert_eq!(with(&card_b(), &[0, 1, 2], &[1, 2], 48), 0);
    assert_eq!(with(&CARD_A, &[0], &[], 7), 9);
    assert_eq!(with(&CARD_A, &[0], &[], 8), 0);
    assert_eq!(with(&chain(), &[0, 1], &[], 1_023), 9);
    assert_eq!(with(&chain(), &[0, 1], &[], 1_024), 0);
    assert_eq!(with(&chain(), &[0, 1], &[1; 24], 25_599), 9);
    assert_eq!(with(&chain(), &[0, 1], &[1; 24], 25_600), 0);
}

#[test]
fn refusal_10() {
    assert_eq!(call(&CARD_A, &[0], &[2]), 10);
    assert_eq!(call(&CARD_A, &[0], &[1]), 0);
    assert_eq!(call(&card_a(&[(8, 0)]), &[0], &[1]), 10);
    assert_eq!(call(&card_a(&[(8, 0)]), &[0], &[]), 10);
}

#[test]
fn refusal_12() {
    for length in 0..6 {
        let mut answer = vec![9; length];
        let result = optimize(&CARD_A, &[0], &[1, 1], 100, &mut answer);
        if length < 4 {
            assert_eq!(result, Err(12));
            assert_eq!(answer, vec![9; length]);
        } else {
            assert_eq!(result.unwrap().pairs, 2);
            assert_eq!(answer[..4], [1, 1, 1, 1]);
            assert_eq!(answer[4..], vec![9; length - 4]);
        }
    }
    // the empty word: no pairs, and insertions alone
    assert_eq!(optimize(&CARD_A, &[0], &[], 8, &mut []).unwrap().pairs, 0);
    assert_eq!(optimize(&chain(), &[0, 1], &[], 1_024, &mut [0; 253]), Err(12));
    let found = optimize(&chain(), &[0, 1], &[], 1_024, &mut [0; 254]).unwrap();
    assert_eq!((found.profile, found.pairs, found.word_length), ([1_905, 1_905, 0, 0, 0, 0], 127, 0));
    assert_eq!(optimize(&chain(), &[0, 1], &[1; 24], 25_600, &mut [0; 6_397]), Err(12));
    let found = optimize(&chain(), &[0, 1], &[1; 24], 25_600, &mut [0; 6_398]).unwrap();
    assert_eq!((found.profile, found.pairs, found.word_length), ([47_985, 47_985, 0, 0, 0, 0], 3_199, 24));
}

#[test]
fn refusals_13_and_14() {
    let evaluated = |card: &[u8], bytes: &[u8]| evaluate(card, bytes).err().unwrap_or(0);
    assert_eq!(evaluated(&CARD_A, &[0, 0]), 13);
    assert_eq!(evaluated(&CARD_A, &[1, 1, 0, 0]), 13);
    assert_eq!(evaluated(&CARD_A, &[1]), 13);
    assert_eq!(evaluated(&CARD_A, &[1, 1, 1]), 13);
    assert_eq!(evaluated(&CARD_A, &[1, 3]), 13);
    assert_eq!(evaluated(&CARD_A, &[3, 1]), 13);
    assert_eq!(evaluated(&CARD_A, &[1; 2 * 3_199]), 0);
    assert_eq!(evaluated(&CARD_A, &[1; 2 * 3_199 + 1]), 13);
    assert_eq!(evaluated(&CARD_A, &[1; 2 * 3_200]), 13);
    assert_eq!(evaluate(&card_a(&[(11, 15)]), &[1; 2 * 3_199]).unwrap().profile, [47_985, 0, 0, 0, 0, 0]);

    assert_eq!(evaluated(&CARD_A, &[2, 2]), 14);
    assert_eq!(evaluated(&CARD_A, &[1, 2]), 0);
    assert_eq!(evaluated(&CARD_A, &[0, 1]), 14);
    assert_eq!(evaluated(&card_a(&[(8, 0)]), &[1, 2]), 14);
    // the candidate of no pairs
    assert_eq!(evaluated(&CARD_A, &[]), 0);
    assert_eq!(evaluated(&card_a(&[(8, 0)]), &[]), 14);
}

#[test]
fn refusals_15_and_16() {
    assert_eq!(find_ranking(3, &[1, 1]), Err(15));
    assert_eq!(find_ranking(3, &[1, 2]), Ok([0, 1, 2, 0, 0, 0]));
    assert_eq!(find_ranking(3, &[1]), Err(15));
    assert_eq!(find_ranking(3, &[1, 2].repeat(64)), Ok([0, 1, 2, 0, 0, 0]));
    assert_eq!(find_ranking(3, &[1, 2].repeat(65)), Err(15));
    assert_eq!(find_ranking(3, &[4, 0]), Ok([0, 1, 2, 0, 0, 0]));
    assert_eq!(find_ranking(3, &[8, 0]), Err(15));
    assert_eq!(find_ranking(3, &[0, 8]), Err(15));
    assert_eq!(find_ranking(6, &[32, 31]), Ok([5, 0, 1, 2, 3, 4]));
    assert_eq!(find_ranking(6, &[64, 0]), Err(15));

    assert_eq!(find_ranking(2, &[1, 2, 2, 1]), Err(16));
    assert_eq!(find_ranking(2, &[2, 1]), Ok([1, 0, 0, 0, 0, 0]));
    assert_eq!(find_ranking(3, &[0, 1]), Err(16));
    assert_eq!(find_ranking(3, &[0, 0]), Ok([0, 1, 2, 0, 0, 0]));
}

#[test]
fn refusals_17_and_18() {
    assert_eq!(read_part(&CARD_A, 0), Ok((6, 23)));
    assert_eq!(read_part(&CARD_A, 1), Err(17));
    assert_eq!(read_part(&card_b(), 2), Ok((181, 83)));
    assert_eq!(read_part(&card_b(), 3), Err(17));

    let packed = |lengths: &[u16], joined: &[u8], room| pack(2, lengths, joined, &mut vec![7; room]);
    assert_eq!(packed(&[23], &CARD_A[6..], 29), Ok(29));
    assert_eq!(packed(&[22], &CARD_A[6..], 29), Err(17));
    assert_eq!(packed(&[24], &CARD_A[6..], 29), Err(17));
    // 2 × 32,768 is not 0
    assert_eq!(packed(&[32_768, 32_768], &[], 29), Err(17));
    assert_eq!(packed(&[23], &CARD_A[6..], 28), Err(18));

    let mut target = [7; 31];
    assert_eq!(pack(2, &[23], &CARD_A[6..], &mut target[..28]), Err(18));
    assert_eq!(target, [7; 31]);
    assert_eq!(pack(2, &[23], &CARD_A[6..], &mut target), Ok(29));
    assert_eq!(target[..29], CARD_A);
    assert_eq!(target[29..], [7, 7]);
    let mut target = [0; 264];
    assert_eq!(pack(2, &[124, 43, 83], &card_b()[14..], &mut target), Ok(264));
    assert_eq!(target[..], card_b());
}

#[test]
fn refusal_1_of_the_other_calls() {
    for count in [0, 7, 255] {
        assert_eq!(compare(count, &[0], &[0; 6], &[0; 6]), Err(1));
        assert_eq!(condition(count, &[0; 6], &[1; 6]), Err(1));
        assert_eq!(find_ranking(count, &[]), Err(1));
    }
    assert_eq!(condition(6, &[0; 6], &[1; 6]), Ok((63, 0)));
    assert_eq!(condition(1, &[1; 6], &[0; 6]), Ok((0, 1)));
    assert_eq!(pack(0, &[23], &CARD_A[6..], &mut [0; 29]), Err(1));
    assert_eq!(pack(64, &[23], &CARD_A[6..], &mut [0; 29]), Err(1));
    assert_eq!(pack(63, &[23], &CARD_A[6..], &mut [0; 29]), Ok(29));
    assert_eq!(pack(2, &[], &[], &mut [0; 29]), Err(1));
    assert_eq!(pack(2, &[3; 6], &[1, 0, 1].repeat(6), &mut [0; 44]), Ok(44));
    assert_eq!(pack(2, &[3; 7], &[1, 0, 1].repeat(7), &mut [0; 99]), Err(1));
}

#[test]
fn the_first_refusal_met() {
    // parts that are refused by 3, 4, 5, by 4 and 5, and one that is accepted
    let arc_a = || arc(0, 0, 0, set([1]), set([1, 2]));
    let three = vec![1];
    let four = machine(&[true], vec![arc(0, 0, 16, 1, 2)]).part();
    let five = machine(&[true], vec![arc_a(), arc_a()]).part();
    let four_and_five = machine(&[true], vec![arc_a(), arc_a(), arc(0, 0, 16, 1, 2)]).part();
    let good = machine(&[true; 32], vec![]).part();
    let parts = |list: &[&Vec<u8>]| list.iter().map(|&part| part.clone()).collect::<Vec<_>>();
    for (list, first) in [
        (vec![&five, &three], 5),
        (vec![&five, &four], 5),
        (vec![&four, &three], 4),
        (vec![&four_and_five], 4),
        (vec![&good, &good, &three], 3),
        (vec![&good, &good, &five], 5),
        (vec![&good, &good], 6),
    ] {
        let list = parts(&list);
        assert_eq!(number(&lay_out(2, &list)), first);
        let lengths: Vec<u16> = list.iter().map(|part| part.len() as u16).collect();
        assert_eq!(pack(2, &lengths, &list.concat(), &mut []), Err(first));
        assert_eq!(pack(2, &lengths, &[], &mut []), Err(17));
        assert_eq!(pack(0, &lengths, &[], &mut []), Err(1));
        assert_eq!(read_part(&lay_out(2, &list), 9), Err(first));
        assert_eq!(evaluate(&lay_out(2, &list), &[0, 0]), Err(first));
        assert_eq!(optimize(&lay_out(2, &list), &[], &[], 0, &mut []), Err(first));
        // a layout that is broken as well, then counts too
        let mut card = lay_out(2, &list);
        card.push(0);
        assert_eq!(number(&card), 2);
        card[1] = 64;
        assert_eq!(number(&card), 1);
    }
    assert_eq!(optimize(&CARD_A, &[1], &[0], 0, &mut []), Err(7));
    assert_eq!(optimize(&CARD_A, &[0], &[0], 0, &mut []), Err(8));
    assert_eq!(optimize(&CARD_A, &[0], &[2], 0, &mut []), Err(9));
    assert_eq!(optimize(&CARD_A, &[0], &[2], 16, &mut []), Err(10));
    assert_eq!(optimize(&CARD_A, &[0], &[1], 16, &mut []), Err(12));
    assert_eq!(evaluate(&CARD_A, &[2, 2, 0, 0]), Err(13));
    assert_eq!(compare(7, &[0, 0], &[0; 6], &[0; 6]), Err(1));
    assert_eq!(find_ranking(7, &[1]), Err(1));
    assert_eq!(find_ranking(2, &[1, 2, 2, 1, 3, 3]), Err(15));
}
