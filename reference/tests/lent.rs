//! Guards around lent memory tell what was written where.

use reference::lent::Lent;

#[test]
fn guards() {
    for length in [0usize, 1, 5] {
        let contents: Vec<u16> = (10..10 + length as u16).collect();
        let guard = [900, 901, 902];
        let lent = || Lent::new(&contents, &guard);
        assert_eq!((lent().contents(), lent().length()), (&contents[..], length));
        assert!(lent().contents_kept() && lent().guards_kept());
        assert!(!lent().pointer().is_null());
        for place in 0..length + 6 {
            let mut written = lent();
            written.memory()[place] += 1;
            let inside = (3..3 + length).contains(&place);
            assert_eq!((written.contents_kept(), written.guards_kept()), (!inside, inside));
        }
    }
}
