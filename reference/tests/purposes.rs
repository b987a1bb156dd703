//! 01, "Purpose tree and labels": the library by itself.

use reference::purpose::{open, Label, NotTaken, Tree, LIMIT};

#[test]
fn only_the_first_has_no_parent() {
    let mut tree = Tree::new();
    assert_eq!(tree.add(Some(0)), Err(NotTaken));
    assert_eq!(tree, Tree::new());
    assert_eq!(tree.add(None), Ok(0));
    let before = tree.clone();
    assert_eq!(tree.add(None), Err(NotTaken));
    assert_eq!(tree.add(Some(1)), Err(NotTaken));
    assert_eq!(tree.add(Some(usize::MAX)), Err(NotTaken));
    assert_eq!(tree, before);
    assert_eq!(tree.add(Some(0)), Ok(1));
}

#[test]
fn as_many_as_the_limit_are_taken_and_no_more() {
    let mut tree = Tree::new();
    assert_eq!(tree.add(None), Ok(0));
    for p in 1..LIMIT {
        assert_eq!(tree.add(Some(p - 1)), Ok(p));
    }
    let before = tree.clone();
    assert_eq!(tree.add(Some(0)), Err(NotTaken));
    assert_eq!(tree, before);
    assert_eq!(tree.count(), 256);
    // A chain: the last descends from the first and not the other way round.
    assert!(tree.descends(255, 0));
    assert!(!tree.descends(0, 255));
}

/// 0 over 1 and 2; 1 over 3.
fn small() -> Tree {
    let mut tree = Tree::new();
    tree.add(None).unwrap();
    tree.add(Some(0)).unwrap();
    tree.add(Some(0)).unwrap();
    tree.add(Some(1)).unwrap();
    tree
}

#[test]
fn descends_includes_itself() {
    let tree = small();
    let expected = [[true, false, false, false], [true, true, false, false], [true, false, true, false], [true, true, false, true]];
    for (low, row) in expected.iter().enumerate() {
        for (high, &yes) in row.iter().enumerate() {
            assert_eq!(tree.descends(low, high), yes, "{low} under {high}");
        }
    }
    assert!(!tree.descends(4, 4));
    assert!(!tree.descends(4, 0));
    assert!(!tree.descends(0, 4));
}

#[test]
fn open_by_01() {
    let tree = small();
    let openness = |allowed: &[usize], denied: &[usize]| {
        let label = Label { allowed: allowed.to_vec(), denied: denied.to_vec() };
        (0..5).map(|p| open(&tree, &label, p)).collect::<Vec<_>>()
    };
    // Allowed goes down only; denied up and down; outside the tree is closed.
    assert_eq!(openness(&[1], &[]), [false, true, false, true, false]);
    assert_eq!(openness(&[0], &[1]), [false, false, true, false, false]);
    assert_eq!(openness(&[0], &[3]), [false, false, true, false, false]);
    assert_eq!(openness(&[1, 2], &[2]), [false, true, false, true, false]);
    assert_eq!(openness(&[1], &[1]), [false; 5]);
    assert_eq!(openness(&[0], &[0]), [false; 5]);
    assert_eq!(openness(&[], &[]), [false; 5]);
    // Members outside the tree have no effect.
    assert_eq!(openness(&[4, usize::MAX], &[]), [false; 5]);
    assert_eq!(openness(&[0, 9], &[4, usize::MAX]), [true, true, true, true, false]);
}

#[test]
fn an_empty_tree_has_everything_closed() {
    assert!(!open(&Tree::new(), &Label { allowed: vec![0], denied: vec![] }, 0));
}
