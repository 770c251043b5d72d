//! The program's lines.

use reference::lines::{answer, run};
use reference::samples::{arc, card, card_b, chain, machine, set, CARD_A};

#[test]
fn bad_lines() {
    let long = |length: usize| {
        let mut line = b"0 1".to_vec();
        while line.len() < length {
            line.extend(b",1");
        }
        line
    };
    for line in [
        &b""[..],
        b" ",
        b"0",
        b"0  ",
        b" 1",
        b"0  1",
        b"0 1 ",
        b"0 1,",
        b"0 ,1",
        b"0 1,,1",
        b"0 1;1",
        b"0,1",
        b"a 1",
        b"0 a",
        b"-0 1",
        b"0 -1",
        b"0 +1",
        b"0 1\r",
        b"0\t1",
        b"0123456789 1",
        b"0 0001",
        b"0 256",
        b"0 999",
        b"0 1,256",
        b"0 1\0",
        &long(201),
    ] {
        assert_eq!(answer(&CARD_A, line), "bad line", "{:?}", String::from_utf8_lossy(line));
        assert_eq!(answer(&[], line), "bad line");
    }
    assert_eq!(long(199).len(), 199);
    assert_eq!(answer(&CARD_A, &long(199)), "refused 8");
    // 200 bytes
    assert_eq!(answer(&CARD_A, &[&long(197)[..], b",01"].concat()), "refused 8");
    assert_eq!(answer(&CARD_A, &[&long(197)[..], b",001"].concat()), "bad line");
}

#[test]
fn well_formed_lines() {
    assert_eq!(answer(&CARD_A, b"0 001"), "0 1:1");
    assert_eq!(answer(&CARD_A, b"0 1,01,001"), "0 1:1 1:1 1:1");
    assert_eq!(answer(&CARD_A, b"0 255"), "refused 8");
    assert_eq!(answer(&CARD_A, b"0 0"), "refused 8");
    assert_eq!(answer(&CARD_A, b"123456789 1"), "refused 7");
    assert_eq!(answer(&[], b"0 1"), "refused 1");
}

#[test]
fn the_empty_word() {
    assert_eq!(answer(&card_b(), b"012 "), "0,0,0");
    assert_eq!(answer(&card_b(), b"011 "), "refused 7");
    assert_eq!(answer(&card_b(), b"012"), "bad line");
    assert_eq!(answer(&card_b(), b"012  "), "bad line");
    assert_eq!(answer(&CARD_A, b"0 "), "0");
    assert_eq!(answer(&[], b"0 "), "refused 1");
    assert_eq!(run(&card_b(), b"012 \n210 "), "0,0,0\n0,0,0\nanswered 2 refused 0\ntotal 0,0,0\n");
    // a form of insertions alone: a syllable has to be there
    let syllable =
        machine(&[false, false, true], vec![arc(0, 1, 1, set([0]), set([1])), arc(1, 2, 1, set([0]), set([2]))]);
    assert_eq!(answer(&card(2, &[syllable]), b"0 "), "2 0:1 0:2");
}

/// What is printed before the two closing lines.
fn answers(card: &[u8], input: &[u8]) -> String {
    let text = run(card, input);
    let lines: Vec<&str> = text.split_inclusive('\n').collect();
    lines[..lines.len() - 2].concat()
}

#[test]
fn lines_of_the_input() {
    assert_eq!(answers(&CARD_A, b""), "");
    assert_eq!(answers(&CARD_A, b"\n"), "bad line\n");
    assert_eq!(answers(&CARD_A, b"0 1"), "0 1:1\n");
    assert_eq!(answers(&CARD_A, b"0 1\n"), "0 1:1\n");
    assert_eq!(answers(&CARD_A, b"0 1\n\n0 2"), "0 1:1\nbad line\nrefused 10\n");
    assert_eq!(answers(&card_b(), b"021 2\n"), "0,1,0 0:1 2:2\n");
}

#[test]
fn totals() {
    let four = "0,0,1 2:0\n0,1,0 0:1 2:2\nanswered 2 refused 0\ntotal 0,1,1\n";
    assert_eq!(run(&card_b(), b"012 2\n021 2\n"), four);
    assert_eq!(run(&card_b(), b"012 2\n021 2"), four);
    // nothing asked, nothing answered, and bad lines
    assert_eq!(run(&card_b(), b""), "answered 0 refused 0\ntotal 0,0,0\n");
    assert_eq!(run(&CARD_A, b"0 2\n"), "refused 10\nanswered 0 refused 1\ntotal 0\n");
    assert_eq!(run(&CARD_A, b"0 2\n\n0 1"), "refused 10\nbad line\n0 1:1\nanswered 1 refused 2\ntotal 0\n");
    // a card that is refused
    assert_eq!(run(&[], b"0 1\nx\n"), "refused 1\nbad line\nanswered 0 refused 2\ntotal\n");
    assert_eq!(run(&[], b""), "answered 0 refused 0\ntotal\n");
    // counts that 16 bits do not hold
    let word = [b"01 1", &b",1".repeat(23)[..], b"\n"].concat();
    assert!(run(&chain(), &word.repeat(2)).ends_with("\nanswered 2 refused 0\ntotal 95970,95970\n"));
}

/// A thousand lines are answered; the next one is refused whatever it is, and ends the input.
#[test]
fn a_thousand_lines() {
    for (lines, last, refused) in
        [(999, "", 0), (1_000, "", 0), (1_000, "x", 1), (1_000, "021 2\nx\n", 1), (1_002, "", 1)]
    {
        for card in [card_b(), vec![]] {
            let text = run(&card, ["021 2\n".repeat(lines), last.to_string()].concat().as_bytes());
            let printed: Vec<&str> = text.lines().collect();
            let counted = lines.min(1_000);
            assert_eq!(printed.len(), counted + refused + 2);
            assert_eq!(printed.iter().filter(|line| **line == "refused 22").count(), refused);
            assert!(refused == 0 || printed[1_000] == "refused 22");
            let closing = match card.is_empty() {
                true => [format!("answered 0 refused {counted}"), "total".to_string()],
                false => [format!("answered {counted} refused 0"), format!("total 0,{counted},0")],
            };
            assert_eq!(printed[printed.len() - 2..], closing);
        }
    }
}

#[test]
fn long_card_files() {
    // of a longer file the first 30,831 bytes are used, and no accepted card has as many
    assert_eq!(answers(&[&CARD_A[..], &[0; 40_000]].concat(), b"0 1\n"), "refused 2\n");
    let mut card = [&[1, 2, 6, 0][..], &30_825u16.to_le_bytes(), &[0; 40_000]].concat();
    assert_eq!(answers(&card, b"0 1\n"), "refused 3\n");
    card[4] += 1;
    assert_eq!(answers(&card, b"0 1\n"), "refused 2\n");
}
