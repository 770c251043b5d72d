//! Calls as lines: what is read from a line is written as the same line.

use reference::generators::Generator;
use reference::random::Random;
use reference::written::{line, read, single_calls};

#[test]
fn a_line_read_is_written_alike() {
    let (generator, mut random, mut kinds) = (Generator::default(), Random::new(49), std::collections::BTreeSet::new());
    for _ in 0..400 {
        for call in single_calls(&generator.call(&mut random)) {
            let text = line(&call);
            assert_eq!(line(&read(&text)), text);
            kinds.insert(call.kind());
        }
    }
    // every kind but the cull, which is the twin of another, and whole live tableaux
    assert_eq!(kinds.len(), 14);
}
