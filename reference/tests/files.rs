//! The files of tests/data and of demo hold what this implementation makes and prints.

use reference::card::read_card;
use reference::cases::cases;
use reference::lines::run;
use reference::optimizer::list;
use reference::tableau::say;
use std::fs::read;
use std::path::{Path, PathBuf};

fn repository() -> PathBuf {
    Path::new(env!("CARGO_MANIFEST_DIR")).join("..")
}

#[test]
fn the_cases() {
    for case in cases() {
        let place = repository().join("tests/data").join(case.name);
        assert!(read_card(&case.card).is_ok(), "{}", case.name);
        assert!(read(place.join("card.bin")).unwrap() == case.card, "{}", case.name);
        assert!(read(place.join("stdin")).unwrap() == case.input().as_bytes(), "{}", case.name);
        assert!(read(place.join("stdout")).unwrap() == case.answers().as_bytes(), "{}", case.name);
    }
}

/// The slowest cards that bench/slowest found, which are in no sample.
#[test]
fn the_slowest() {
    for name in ["slowest", "slowest_other"] {
        let place = repository().join("tests/data").join(name);
        let text = run(&read(place.join("card.bin")).unwrap(), &read(place.join("stdin")).unwrap());
        assert!(read(place.join("stdout")).unwrap() == text.as_bytes(), "{name}");
    }
}

#[test]
fn the_demo() {
    let mut cards = 0;
    for place in std::fs::read_dir(repository().join("demo")).unwrap().map(|entry| entry.unwrap().path()) {
        if place.join("card.txt").exists() {
            let text = run(&read(place.join("card.bin")).unwrap(), &read(place.join("stdin")).unwrap());
            assert!(read(place.join("stdout")).unwrap() == text.as_bytes(), "{}", place.display());
            cards += 1;
        }
    }
    assert!(cards >= 11);
}

/// The demo's tableaux are judged as they are said to be.
#[test]
fn the_tableaux() {
    let mut met = std::collections::BTreeMap::new();
    for place in std::fs::read_dir(repository().join("demo")).unwrap().map(|entry| entry.unwrap().path()) {
        let verdicts = match std::fs::read_to_string(place.join("tableaux/verdicts")) {
            Ok(verdicts) => verdicts,
            Err(_) => continue,
        };
        let card = read(place.join("card.bin")).unwrap();
        for line in verdicts.lines() {
            let (file, ranking, word, verdict) = match line.splitn(4, ' ').collect::<Vec<_>>()[..] {
                [file, ranking, word, verdict] => (file, ranking, word, verdict),
                _ => panic!("{line}"),
            };
            let tableau = read(place.join("tableaux").join(file)).unwrap();
            assert_eq!(say(&card, &format!("{ranking} {word}"), &tableau), verdict, "{} {file}", place.display());
            *met.entry(verdict.to_string()).or_insert(0) += 1;
        }
    }
    assert_eq!(met.into_values().collect::<Vec<_>>(), [1, 1, 1, 1, 19]); // another row, 1 and 2, not in the table, refused, right
}

/// Ellison's set has 64 syllabifications of alqalamu.
#[test]
fn alqalamu() {
    let card = read_card(&read(repository().join("demo/alqalamu/card.bin")).unwrap()).unwrap();
    let mut count = 0;
    list(&card, &[1, 2, 3, 1, 2, 1, 4, 5], 20, &mut |_, _| count += 1);
    assert_eq!(count, 64);
}
