//! The live tableau: rows and leader, refusals 23 and 24 with their neighbours, and lists of calls worked out afresh.

use reference::live::{add, leader, remove, Row, Step, Table};
use reference::random::Random;
use reference::Profile;

const RANKING: [u8; 3] = [1, 0, 2];

fn row(id: u16, counts: [u16; 3]) -> Row {
    Row { id, counts: [counts[0], counts[1], counts[2], 0, 0, 0] }
}

/// What is in the records that nobody uses.
const OTHER: Row = Row { id: 999, counts: [9; 6] };

#[test]
fn adding_and_removing() {
    let mut list = [OTHER; 4];
    let (a, b, c) = (row(7, [0, 1, 0]), row(0, [1, 0, 0]), row(65_535, [0, 0, 5]));
    assert_eq!(add(3, &RANKING, 0, &mut list, a), Ok(1));
    assert_eq!(add(3, &RANKING, 1, &mut list, b), Ok(2));
    assert_eq!(add(3, &RANKING, 2, &mut list, c), Ok(3));
    assert_eq!(list, [a, b, c, OTHER]);
    // later ones move up, the freed last record is zeros
    assert_eq!(remove(3, &RANKING, 3, &mut list, 7), Ok(2));
    assert_eq!(list, [b, c, Row::default(), OTHER]);
    // an id added again arrives anew, with whatever counts it has then
    let anew = row(7, [3, 3, 3]);
    assert_eq!(add(3, &RANKING, 2, &mut list, anew), Ok(3));
    assert_eq!(list, [b, c, anew, OTHER]);
    assert_eq!(remove(3, &RANKING, 3, &mut list, 7), Ok(2));
    assert_eq!(remove(3, &RANKING, 2, &mut list, 0), Ok(1));
    assert_eq!(remove(3, &RANKING, 1, &mut list, 65_535), Ok(0));
    assert_eq!(list, [Row::default(), Row::default(), Row::default(), OTHER]);
}

/// Counts from K on are kept and answered, and not looked at.
#[test]
fn kept_as_handed_in() {
    let mut list = [OTHER; 2];
    let first = Row { id: 1, counts: [0, 7, 7, 7, 7, 7] };
    let second = Row { id: 2, counts: [0, 0, 0, 0, 0, 0] };
    assert_eq!(add(1, &[0], 0, &mut list, first), Ok(1));
    assert_eq!(add(1, &[0], 1, &mut list, second), Ok(2));
    assert_eq!(list, [first, second]);
    assert_eq!(leader(1, &[0], 2, &list), Ok(Some(first)));
}

#[test]
fn the_leader() {
    let list = [row(1, [1, 1, 0]), row(2, [0, 1, 9]), row(3, [5, 1, 0]), row(4, [0, 1, 9])];
    assert_eq!(leader(3, &RANKING, 0, &list), Ok(None));
    assert_eq!(leader(3, &RANKING, 1, &list), Ok(Some(list[0])));
    assert_eq!(leader(3, &RANKING, 2, &list), Ok(Some(list[1])));
    // the earliest of equals; records past the row count are not looked at
    assert_eq!(leader(3, &RANKING, 4, &list), Ok(Some(list[1])));
    assert_eq!(leader(3, &[2, 1, 0], 4, &list), Ok(Some(list[0])));
    assert_eq!(leader(3, &RANKING, 0, &[]), Ok(None));
}

#[test]
fn an_id_twice() {
    let (first, second) = (row(5, [1, 0, 0]), row(5, [2, 0, 0]));
    let mut list = [first, second, OTHER];
    assert_eq!(remove(3, &RANKING, 2, &mut list, 5), Ok(1));
    assert_eq!(list, [second, Row::default(), OTHER]);
}

#[test]
fn refusals_1_and_7() {
    let mut list = [OTHER; 2];
    for count in [0, 7, 255] {
        assert_eq!(add(count, &[0], 9, &mut list, OTHER), Err(1));
        assert_eq!(remove(count, &[0], 9, &mut list, 1), Err(1));
        assert_eq!(leader(count, &[0], 9, &list), Err(1));
    }
    for ranking in [&[][..], &[0, 0], &[0, 1, 2], &[1, 2]] {
        assert_eq!(add(2, ranking, 9, &mut list, OTHER), Err(7));
        assert_eq!(remove(2, ranking, 9, &mut list, 1), Err(7));
        assert_eq!(leader(2, ranking, 9, &list), Err(7));
    }
    assert_eq!(list, [OTHER; 2]);
}

#[test]
fn refusal_23() {
    for (length, most) in [(0, 0), (1, 1), (31, 31), (32, 32), (33, 32), (40, 32)] {
        let full: Vec<Row> = (0..length as u16).map(|id| row(id, [0; 3])).collect();
        for used in [most, most + 1, length + 1, 256, 65_536, usize::MAX] {
            let above = used > most;
            let mut list = full.clone();
            assert_eq!(add(3, &RANKING, used, &mut list, row(500, [0; 3])), Err(23));
            assert_eq!(leader(3, &RANKING, used, &list).err(), above.then_some(23));
            assert_eq!(list, full);
            assert_eq!(remove(3, &RANKING, used, &mut list, 500), Err(if above { 23 } else { 24 }));
            assert_eq!(list, full);
        }
        if most > 0 {
            let mut list = full.clone();
            assert_eq!(add(3, &RANKING, most - 1, &mut list, row(500, [0; 3])), Ok(most));
            assert_eq!(remove(3, &RANKING, most, &mut list, 500), Ok(most - 1));
        }
    }
}

#[test]
fn refusal_24() {
    let mut list = [row(1, [0; 3]), row(2, [0; 3]), row(3, [0; 3])];
    let before = list;
    assert_eq!(add(3, &RANKING, 2, &mut list, row(2, [1; 3])), Err(24));
    assert_eq!(remove(3, &RANKING, 2, &mut list, 3), Err(24));
    assert_eq!(remove(3, &RANKING, 0, &mut list, 1), Err(24));
    // 23 comes first
    assert_eq!(add(3, &RANKING, 3, &mut list, row(2, [1; 3])), Err(23));
    assert_eq!(remove(3, &RANKING, 4, &mut list, 9), Err(23));
    assert_eq!(list, before);
    // an id past the row count is not there
    assert_eq!(add(3, &RANKING, 2, &mut list, row(3, [1; 3])), Ok(3));
}

/// Every list of calls from an empty table: rows and leader as worked out from the ids added and not since removed.
#[test]
fn lists_of_calls() {
    let mut random = Random::new(2026);
    let mut met = std::collections::BTreeMap::new();
    for _ in 0..2_000 {
        let room = random.one_of(&[0, 1, 3, 5, 32, 33]);
        let mut list = vec![OTHER; room];
        let mut table = Table { ranking: &RANKING, room, history: vec![] };
        let mut used = 0;
        for _ in 0..random.below(80) {
            let id = random.below(6 + room) as u16;
            let counts: Profile = std::array::from_fn(|_| random.below(3) as u16);
            let step = random.one_of(&[Step::Add(Row { id, counts }), Step::Add(Row { id, counts }), Step::Remove(id)]);
            let found = match step {
                Step::Add(row) => add(3, &RANKING, used, &mut list, row),
                Step::Remove(id) => remove(3, &RANKING, used, &mut list, id),
                Step::Leader => unreachable!("not made"),
            };
            let number = table.take(step);
            assert_eq!(found.err().unwrap_or(0) as u32, number);
            used = found.unwrap_or(used);
            assert_eq!(list[..used], table.rows());
            assert_eq!(leader(3, &RANKING, used, &list), Ok(table.leader()));
            *met.entry(number).or_insert(0) += 1;
        }
    }
    assert!([0, 23, 24].iter().all(|number| met[number] > 500), "{met:?}");
}
