//! 01, "The no-difference claim": pairs of documents alike for a query, chosen by hand.

mod common;
use common::*;
use reference::{ask, Answer, Refusal};

const TABLES: &str = "\
(table n none (a num) (b name))
(public n)
(row n 1 x)
(table m none (a num) (b name))
(row m 1 x)
(table t table nomid (a num))
(row t 2)
(table c column (a num open) (b num nomid))
(row c 3 4)
(table r row (a num))
(row r shut 5)
(row r nomid 6)
(row r open 7)
(table e cell (a num) (b name))
(row e (8 nomid) (y open))
(row e (9 open) (z shut))
(table g cell (a num) (b num))
(row g (8 nomid) ((1 5) nomid))
(row g (9 open) ((2 2) open))
(row g (9 shut) ((2 2) open))
";

/// What is handed back and every byte of a buffer of 200.
fn outcome(doc: &str, query: &str) -> (Result<Answer, Refusal>, Vec<u8>) {
    let mut out = vec![b'#'; 200];
    let result = ask(doc.as_bytes(), query.as_bytes(), CLOCK, &mut out);
    if let Err(refusal) = result {
        assert!(refusal.number >= 10, "{refusal:?}");
    }
    (result, out)
}

#[test]
fn exempt_cells_make_no_difference() {
    let doc = format!("{BASE}{TABLES}");
    for (line, other, queries) in [
        // A column or a table that the query doesn't name, though open.
        ("(row n 1 x)", "(row n 1 longer)", &["(select u r leaf n (a))", "(count u r leaf n)", "(count u r leaf n (gt a 0))", "(count u r leaf r)", "(select u r leaf e (a b))"][..]),
        // A table closed to the purpose: 17, 16 and 15 alike.
        ("(row t 2)", "(row t -22)", &["(select u r leaf t (a))", "(count u r mid t (eq a 2))", "(count u r root t (eq a x))", "(count u r leaf t (eq b 2))"][..]),
        // A column closed to the purpose, named or not.
        ("(row c 3 4)", "(row c 3 44)", &["(select u r leaf c (a))", "(select u r leaf c (b))", "(select u r leaf c (a) (or (gt a 0) (eq b 4)))", "(count u r leaf c)"][..]),
        // Rows withheld.
        ("(row r shut 5)", "(row r shut 55)", &["(select u r side r (a))", "(count u r leaf r)", "(count u r side r (eq a 5))"][..]),
        ("(row r nomid 6)", "(row r nomid 7)", &["(select u r leaf r (a) (eq a 7))", "(count u r root r (eq a 6))"][..]),
        // A closed cell, and an open one beside it in a row withheld.
        ("(row e (8 nomid) (y open))", "(row e (88 nomid) (y open))", &["(select u r leaf e (b))", "(select u r leaf e (a))", "(count u r leaf e (eq a 8))", "(count u r leaf e)"][..]),
        ("(row e (8 nomid) (y open))", "(row e (8 nomid) (Y2 open))", &["(select u r leaf e (a b))", "(select u r leaf e (b) (gt a 0))", "(count u r leaf e (or (eq b y) (eq a 8)))"][..]),
        // In case alone, where a value may change at all (02, Q-8).
        ("(row n 1 x)", "(row n 1 X)", &["(select u r leaf n (a))", "(count U R leaf N)", "(select u r leaf e (a b))"][..]),
        ("(row e (8 nomid) (y open))", "(row e (8 nomid) (Y open))", &["(select u r leaf e (A b))", "(count u r leaf E (or (eq b y) (eq A 8)))"][..]),
        ("(row e (9 open) (z shut))", "(row e (9 open) (Z shut))", &["(select u r leaf e (b))", "(select u r leaf e (a))", "(count u r side E (ne B z))"][..]),
        // 02, Q-2: an undeclared table, its columns named, in whatever way: 17, 16 and 15 alike.
        ("(row m 1 x)", "(row m 11 Xx)", &["(select u r leaf m (a b))", "(select u r root m (a) (eq b x))", "(count u r side m)", "(count u r leaf m (gt a 5))", "(count u r leaf m (eq a x))", "(count u r leaf m (eq d 1))"][..]),
        // 02, Q-10: a closed cell that is only selected, in a row that is passed; and a row withheld for one in the condition.
        ("(row e (8 nomid) (y open))", "(row e (-9223372036854775808 nomid) (y open))", &["(blank u r leaf e (a b))", "(blank u r mid e (a) (eq b y))", "(blank u r leaf e (b) (gt a 8))", "(blank u r leaf e (a b) (eq a 8))"][..]),
        ("(row e (9 open) (z shut))", "(row e (9 open) (Longer shut))", &["(blank u r leaf e (b a))", "(blank u r side e (b b) (ge a 9))"][..]),
        ("(row e (9 open) (z shut))", "(row e (-9 open) (z shut))", &["(blank u r leaf e (a) (eq b z))", "(blank u r leaf e (b))"][..]),
        ("(row r nomid 6)", "(row r nomid -7)", &["(blank u r leaf r (a))", "(blank u r leaf r (a) (lt a 0))"][..]),
        ("(row c 3 4)", "(row c 3 44)", &["(blank u r leaf c (a b))", "(blank u r leaf c (a))"][..]),
        // 02, Q-12: a range in either end, closed, not named, in a row withheld; 27 alike.
        ("(row g (8 nomid) ((1 5) nomid))", "(row g (8 nomid) ((-7 5) nomid))", &["(sure u r leaf g (a b))", "(possible u r leaf g (b) (gt b 3))", "(sure u r leaf g (a))", "(select u r leaf g (b))", "(count u r leaf g (eq b 1))", "(blank u r leaf g (a b))", "(possible u r side g (a))", "(count u r side g)"][..]),
        ("(row g (9 open) ((2 2) open))", "(row g (9 open) ((-9223372036854775808 9223372036854775807) open))", &["(sure u r leaf g (a))", "(possible u r leaf g (a) (eq a 9))", "(select u r side g (b))", "(count u r nosuch g (eq b 2))"][..]),
        ("(row g (9 shut) ((2 2) open))", "(row g (9 shut) ((1 3) open))", &["(sure u r side g (b) (eq a 9))", "(possible u r leaf g (a b))"][..]),
        // Texts that are no query, and purposes unknown.
        ("(row n 1 x)", "(row n 10 y)", &["(select", "", "(count u r nosuch n)"][..]),
    ] {
        let changed = doc.replace(line, other);
        assert_ne!(doc, changed);
        for query in queries {
            assert_eq!(outcome(&doc, query), outcome(&changed, query), "{query}");
        }
    }
}

#[test]
fn open_cells_do_make_a_difference() {
    // So that the test above isn't empty.
    let doc = format!("{BASE}{TABLES}");
    let changed = doc.replace("(row r nomid 6)", "(row r nomid 66)");
    assert_ne!(outcome(&doc, "(select u r side r (a))"), outcome(&changed, "(select u r side r (a))"));
    // 02, Q-2: a public table's cells, named, are open to every purpose.
    let changed = doc.replace("(row n 1 x)", "(row n 1 y)");
    for purpose in ["root", "mid", "leaf", "side"] {
        let query = format!("(select u r {purpose} n (b))");
        assert_ne!(outcome(&doc, &query), outcome(&changed, &query), "{purpose}");
    }
    // 02, Q-10: an open cell beside a blank, and an open one of the condition.
    let changed = doc.replace("(row e (9 open) (z shut))", "(row e (10 open) (z shut))");
    for query in ["(blank u r leaf e (a b))", "(blank u r leaf e (b) (eq a 9))"] {
        assert_ne!(outcome(&doc, query), outcome(&changed, query), "{query}");
    }
    // 02, Q-12: an open range's ends, and a range become a number, which 27 tells.
    let changed = doc.replace("(row g (9 open) ((2 2) open))", "(row g (9 open) ((2 3) open))");
    for query in ["(sure u r side g (b))", "(sure u r side g (a) (le b 2))", "(possible u r side g (a) (gt b 2))"] {
        assert_ne!(outcome(&doc, query), outcome(&changed, query), "{query}");
    }
    let only = doc.replace("((2 2) open)", "(2 open)");
    let none = only.replace("((1 5) nomid)", "(1 nomid)");
    assert_ne!(outcome(&only, "(select u r leaf g (b))"), outcome(&none, "(select u r leaf g (b))"));
    // 02, Q-8: another case of an open value "may be printed".
    let changed = doc.replace("(row e (8 nomid) (y open))", "(row e (8 nomid) (Y open))");
    assert_ne!(outcome(&doc, "(select u r side e (B))"), outcome(&changed, "(select u r side e (B))"));
    assert_eq!(outcome(&doc, "(count u r side e (eq b y))"), outcome(&changed, "(count u r side e (eq b y))"));
}
