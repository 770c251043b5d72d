//! Comparing, conditions and the finder beyond the examples.

use reference::ranking::{compare, condition, find_ranking, fits};
use std::cmp::Ordering::{Equal, Greater, Less};

#[test]
fn down_the_ranking() {
    let (a, b) = ([0, 0, 9, 1, 1, 1], [0, 1, 0, 2, 0, 7]);
    assert_eq!(compare(3, &[0, 1, 2], &a, &b), Ok((Less, Some(1))));
    assert_eq!(compare(3, &[0, 2, 1], &a, &b), Ok((Greater, Some(2))));
    assert_eq!(compare(1, &[0], &a, &b), Ok((Equal, None))); // the places from K on are ignored
    assert_eq!(condition(3, &a, &b), Ok((0b010, 0b100)));
}

/// The finder's answer fits, and no smaller ranking does, for every list of two conditions over three machines.
#[test]
fn the_smallest_ranking_that_fits() {
    let rankings = [[0u8, 1, 2], [0, 2, 1], [1, 0, 2], [1, 2, 0], [2, 0, 1], [2, 1, 0]];
    let all = || (0..8u8).flat_map(|w| (0..8u8).map(move |l| (w, l))).filter(|(w, l)| w & l == 0);
    for (w1, l1) in all() {
        for (w2, l2) in all() {
            let smallest = rankings.iter().find(|r| fits(*r, w1, l1) && fits(*r, w2, l2));
            let answer = find_ranking(3, &[w1, l1, w2, l2]);
            assert_eq!(answer.ok().map(|r| [r[0], r[1], r[2]]), smallest.copied());
            assert!(answer.is_ok() || answer == Err(16));
        }
    }
}

/// A ranking fits the condition of two profiles exactly when it does not put the first below the second.
#[test]
fn conditions_and_comparison() {
    let profile = |n: u16| [n / 9, n / 3 % 3, n % 3, 5, 0, 1];
    for first in (0..27).map(profile) {
        for second in (0..27).map(profile) {
            let (w, l) = condition(3, &first, &second).unwrap();
            for ranking in [[0, 1, 2], [0, 2, 1], [1, 0, 2], [1, 2, 0], [2, 0, 1], [2, 1, 0]] {
                let (order, decided) = compare(3, &ranking, &first, &second).unwrap();
                assert_eq!(fits(&ranking, w, l), order != Greater);
                // the machine that decided is in W where the first is better, in L where it is worse
                assert_eq!(order == Equal, decided.is_none());
                assert!(decided.map_or(true, |machine| (if order == Less { w } else { l }) >> machine & 1 == 1));
            }
        }
    }
}
