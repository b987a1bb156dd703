//! 02, Q-2: "a table without a label serves no purpose until it is declared public".

mod common;
use common::*;

/// A table of each scheme, undeclared, with a row that is open where it has a label.
const TABLES: &str = "\
(table n none (k num) (w name))
(row n 1 x)
(table t table nomid (k num))
(row t 2)
(table c column (k num open) (w num nomid))
(row c 3 4)
(table r row (k num))
(row r nomid 5)
(row r open 6)
(table e cell (k num) (w name))
(row e (7 nomid) (y open))
";

fn with(lines: &str) -> String {
    format!("{BASE}{TABLES}{lines}")
}

#[test]
fn an_undeclared_table_is_17_at_its_name() {
    // "(count u r root n)": T at 16; the others by the length of the purpose and of the keyword.
    for (purpose, place) in [("root", 16), ("mid", 15), ("leaf", 16), ("side", 16)] {
        assert_eq!(query_refused(&with(""), format!("(count u r {purpose} n)").as_bytes(), CLOCK), (17, place, 1));
        assert_eq!(query_refused(&with(""), format!("(count u r {purpose} N (eq k 1))").as_bytes(), CLOCK), (17, place, 1));
        assert_eq!(query_refused(&with(""), format!("(select u r {purpose} n (w k))").as_bytes(), CLOCK), (17, place + 1, 1));
    }
    // Without rows too.
    assert_eq!(query_refused(&format!("{BASE}(table n none (k num))\n"), b"(count u r root n)", CLOCK), (17, 16, 1));
    // 12 to 16 are earlier, 18 is later: "(count u r root n (eq " is 22 bytes.
    assert_eq!(query_refused(&with(""), b"(count u r rot n)", CLOCK), (12, 11, 3));
    assert_eq!(query_refused(&with(""), b"(count u r root n (eq z 1))", CLOCK), (15, 22, 1));
    assert_eq!(query_refused(&with(""), b"(count u r root n (eq k x))", CLOCK), (16, 24, 1));
    let mut no_room: [u8; 0] = [];
    let refusal = reference::ask(with("").as_bytes(), b"(count u r root n)", CLOCK, &mut no_room).expect_err("an answer");
    assert_eq!(refusal.number, 17);
}

#[test]
fn a_declared_table_is_open_to_all() {
    for purpose in ["root", "mid", "leaf", "side"] {
        let query = format!("(select u r {purpose} n (w k))");
        assert_eq!(answer_text(&with("(public n)\n"), &query, CLOCK), "(row x 1)\n(end 1 0 0)\n");
    }
    assert_eq!(answer_text(&with("(public n)\n"), "(count u r mid n (gt k 1))", CLOCK), "(end 0 0 1)\n");
}

#[test]
fn the_line_stands_anywhere_behind_its_table() {
    let rows = ["(row s 1)\n", "(row s 2)\n", "(table z none (k num))\n", "(row s 3)\n", "(purpose last root)\n"];
    for place in 0..=rows.len() {
        let mut lines = rows.to_vec();
        lines.insert(place, "(public s)\n");
        let doc = format!("{BASE}(table s none (k num))\n{}", lines.concat());
        assert_eq!(answer_text(&doc, "(select u r leaf s (k))", CLOCK), "(row 1)\n(row 2)\n(row 3)\n(end 3 0 0)\n");
        // Another table is not opened by it.
        assert_eq!(query_refused(&doc, b"(count u r leaf z)", CLOCK), (17, 16, 1));
    }
}

#[test]
fn on_a_labelled_table_it_does_nothing() {
    let all = "(public t)\n(public c)\n(public r)\n(public e)\n";
    for doc in [with(""), with(all)] {
        assert_eq!(query_refused(&doc, b"(count u r mid t)", CLOCK), (17, 15, 1));
        assert_eq!(answer_text(&doc, "(count u r side t)", CLOCK), "(end 1 0 0)\n");
        assert_eq!(query_refused(&doc, b"(select u r mid c (k w))", CLOCK), (17, 21, 1));
        assert_eq!(answer_text(&doc, "(select u r mid c (k))", CLOCK), "(row 3)\n(end 1 0 0)\n");
        assert_eq!(answer_text(&doc, "(select u r mid r (k))", CLOCK), "(row 6)\n(end 1 1 0)\n");
        assert_eq!(answer_text(&doc, "(select u r mid e (k))", CLOCK), "(end 0 1 0)\n");
        assert_eq!(answer_text(&doc, "(select u r mid e (w))", CLOCK), "(row y)\n(end 1 0 0)\n");
    }
}

#[test]
fn a_second_line_is_4_and_an_unknown_table_5() {
    // "(table s none (k num))\n" is 23 bytes, "(public s)\n" 11: T at 31 and at 42.
    let one = "(table s none (k num))\n(public s)\n";
    assert_eq!(lines(one), 2);
    assert_eq!(refused(&format!("{one}(public s)\n")), (4, 42, 1));
    assert_eq!(refused(&format!("{one}(PUBLIC S)\n")), (4, 42, 1));
    assert_eq!(refused(&format!("{one}(row s 1)\n(public s)\n")), (4, 52, 1));
    assert_eq!(refused(&format!("{one}(public z)\n")), (5, 42, 1));
    assert_eq!(refused("(public s)\n"), (5, 8, 1));
    // Before its table the line is too early, though the table follows.
    assert_eq!(refused("(public s)\n(table s none (k num))\n"), (5, 8, 1));
    // A name of another kind is no table.
    assert_eq!(refused("(purpose p)\n(public p)\n"), (5, 20, 1));
    // On a labelled table the second is 4 as well: "(label l (allow) (deny))\n" is 25 bytes.
    for table in ["(table s table l (k num))", "(table s column (k num l))", "(table s row (k num))", "(table s cell (k num))"] {
        let head = format!("(label l (allow) (deny))\n{table}\n(public s)\n");
        assert_eq!(lines(&head), 3);
        assert_eq!(refused(&format!("{head}(public s)\n")), (4, head.len() + 8, 1), "{table}");
    }
    // Eight tables, eight lines; the line has no bound of its own.
    let eight: String = (0..8).map(|n| format!("(table t{n} none (k num))\n")).chain((0..8).rev().map(|n| format!("(public t{n})\n"))).collect();
    assert_eq!(lines(&eight), 16);
}
