//! The corpus: what is in it, and that the files of the test program hold it.

use reference::call::KINDS;
use reference::corpus::corpus;
use std::collections::BTreeMap;
use std::fs::read;
use std::path::Path;

/// Takes a field of that many bytes off the front.
fn take<'a>(rest: &mut &'a [u8], length: usize) -> &'a [u8] {
    let (field, more) = rest.split_at(length);
    *rest = more;
    field
}

fn number(rest: &mut &[u8]) -> usize {
    let bytes = take(rest, 2);
    bytes[0] as usize + 256 * bytes[1] as usize
}

fn bytes<'a>(rest: &mut &'a [u8]) -> &'a [u8] {
    let length = number(rest);
    take(rest, length)
}

/// Reads a call as the test program does and says its kind; every field fits into that program's memory.
fn read_call(rest: &mut &[u8]) -> usize {
    let kind = take(rest, 1)[0];
    let mut list = |most: usize| assert!(bytes(rest).len() <= most);
    match kind {
        1 | 9 | 13 | 14 => {
            list(32_000);
            list(255);
            if kind <= 9 {
                list(255);
            } else {
                let sets = number(rest);
                assert!(sets <= 32);
                take(rest, 8 * sets);
            }
            assert!(number(rest) <= 25_600);
            assert!(number(rest) <= 6_398);
            take(rest, 1);
        }
        2 => {
            list(32_000);
            list(6_402);
        }
        3 => {
            list(32_000);
            take(rest, 1);
        }
        4 => {
            take(rest, 1);
            let lengths = number(rest);
            assert!(lengths <= 7);
            take(rest, 2 * lengths);
            assert!(bytes(rest).len() <= 32_000);
            assert!(number(rest) <= 32_000);
            take(rest, 1);
        }
        5 => {
            take(rest, 1);
            assert!(bytes(rest).len() <= 255);
            take(rest, 24);
        }
        6 => {
            take(rest, 25);
        }
        7 => {
            take(rest, 1);
            assert!(bytes(rest).len() <= 255);
        }
        8 => {
            list(32_000);
            list(255);
            list(255);
            assert!(number(rest) <= 25_600);
            assert!(bytes(rest).len() <= 32_000);
        }
        15 => {
            list(32_000);
            let weights = number(rest);
            assert!(weights <= 8);
            take(rest, 4 * weights);
            assert!(bytes(rest).len() <= 255);
            assert!(number(rest) <= 6_401);
            assert!(number(rest) <= 6_398);
            take(rest, 1);
        }
        16 => {
            list(32_000);
            take(rest, 2);
            assert!(number(rest) <= 32_000);
            take(rest, 1);
        }
        _ => panic!("no kind {kind}"),
    }
    kind as usize
}

#[test]
fn every_call_and_every_refusal() {
    let corpus = corpus();
    assert!((300..=1_000).contains(&corpus.count));
    assert!(corpus.cases.len() <= 400_000);
    // the live tableau's calls, 10 to 12 and the last, are not in it
    let names = BTreeMap::from([
        (1, "optimize"),
        (2, "evaluate"),
        (3, "part"),
        (4, "pack"),
        (5, "compare"),
        (6, "condition"),
        (7, "ranking"),
        (8, "judge"),
        (9, "cull"),
        (13, "optimize sets"),
        (14, "cull sets"),
        (15, "optimize weights"),
        (16, "join"),
    ]);
    let mut rest = &corpus.cases[..];
    let lines: Vec<&str> = corpus.lines.lines().collect();
    assert_eq!(lines.len(), corpus.count);
    for line in &lines {
        assert!(line.starts_with(&format!("{} ", names[&read_call(&mut rest)])));
    }
    assert!(rest.is_empty());
    assert_eq!(names.len() + 4, KINDS.len());
    for (kind, name) in names {
        let (_, refusals) = KINDS[kind - 1];
        for number in [0].iter().chain(refusals) {
            let start = format!("{name} {number} ");
            assert!(lines.iter().filter(|line| line.starts_with(&start)).count() >= 3, "{start}");
        }
    }
}

#[test]
fn the_files() {
    let place = Path::new(env!("CARGO_MANIFEST_DIR")).join("../crates/test_corpus");
    let corpus = corpus();
    assert!(read(place.join("data/cases")).unwrap() == corpus.cases);
    assert!(read(place.join("stdout")).unwrap() == corpus.lines.as_bytes());
}
