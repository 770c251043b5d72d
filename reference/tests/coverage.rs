//! What a comparison has to meet, and that a short one does not meet it all.

use reference::call::{reference, KINDS};
use reference::comparison::compare;
use reference::coverage::Coverage;

#[test]
fn what_is_missing() {
    let nothing = Coverage::default().missing();
    // every number of every call, and sizes
    assert!(
        nothing.len()
            > KINDS.iter().map(|(_, refusals)| 1 + refusals.len()).sum::<usize>() + 6 + 63 + 25 + 32 + 3 + 25 + 16
    );
    assert!(nothing.iter().any(|line| line == "optimize answers 12: 0 times, 100 are asked"));
    assert!(nothing.iter().any(|line| line == "128 joined states: 0 times, 1 are asked"));

    let few = compare(&reference, 5, 4_000).expect("this implementation agrees with itself").missing();
    assert!(!few.is_empty() && few.len() < nothing.len());
    assert!(!few.iter().any(|line| line.starts_with("optimize answers 0")));
}
