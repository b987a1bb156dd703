//! 02, Q-11: "A `(table T nest (COL num) ..)` has lines `(weak T L)` and `(strong T L)`, each optional (absent is empty sets), which
//! stand before its rows. Its rows are `(row T L (v L) ..)`".

mod common;
use common::*;

/// Labels beside those of `BASE`, whose tree is root over mid and side, and mid over leaf. `none` says nothing, `mid` allows mid and
/// leaf, `leaf` leaf alone, `noleaf` and `noside` deny alone, which closes root too.
const LABELS: &str = "\
(label none (allow) (deny))
(label mid (allow mid) (deny))
(label leaf (allow leaf) (deny))
(label nomid0 (allow) (deny mid))
(label noleaf (allow) (deny leaf))
(label noside (allow) (deny side))
(label noroot (allow) (deny root))
(label leafnoleaf (allow leaf) (deny leaf))
(label midnoleaf (allow mid) (deny leaf))
";

fn with(lines: &str) -> String {
    format!("{BASE}{LABELS}{lines}")
}

/// The purposes, of root, mid, leaf and side, to which the cell of a table's one row is open.
fn opened(table: &str, row: &str, cell: &str) -> String {
    let doc = with(&format!("(table t nest (k num))\n{table}(row t {row} (7 {cell}))\n"));
    let mut open = Vec::new();
    for purpose in ["root", "mid", "leaf", "side"] {
        let text = answer_text(&doc, &format!("(select u r {purpose} t (k))"), CLOCK);
        if text == "(row 7)\n(end 1 0 0)\n" {
            open.push(purpose);
        } else {
            assert_eq!(text, "(end 0 1 0)\n");
        }
        // Every other form agrees: withheld, or written `-`.
        let is_open = open.last() == Some(&purpose);
        let count = answer_text(&doc, &format!("(count u r {purpose} t (eq k 7))"), CLOCK);
        assert_eq!(count, if is_open { "(end 1 0 0)\n" } else { "(end 0 1 0)\n" });
        let blank = answer_text(&doc, &format!("(blank u r {purpose} t (k))"), CLOCK);
        assert_eq!(blank, if is_open { "(row 7)\n(end 1 0 0)\n" } else { "(row -)\n(end 1 0 0)\n" });
        // No named cell, nothing withheld, whatever the row's label.
        assert_eq!(answer_text(&doc, &format!("(count u r {purpose} t)"), CLOCK), "(end 1 0 0)\n");
    }
    open.join(" ")
}

#[test]
fn absent_is_empty_sets() {
    assert_eq!(opened("", "none", "none"), "");
    for (row, cell) in [("open", "none"), ("none", "open"), ("open", "open"), ("open", "shut"), ("mid", "open")] {
        assert_eq!(opened("", row, cell), "root mid leaf side", "{row} {cell}");
    }
    assert_eq!(opened("(weak t open)\n", "none", "none"), "root mid leaf side");
    assert_eq!(opened("(strong t open)\n", "none", "none"), "root mid leaf side");
    // An empty label is no other than an absent one.
    for line in ["(weak t none)\n", "(strong t none)\n", "(strong t shut)\n(weak t none)\n", "(weak t none)\n(strong t none)\n"] {
        assert_eq!(opened(line, "none", "none"), "", "{line}");
        assert_eq!(opened(line, "mid", "noleaf"), opened("", "mid", "noleaf"), "{line}");
    }
}

#[test]
fn allowed_sets_unite() {
    assert_eq!(opened("", "mid", "none"), "mid leaf");
    assert_eq!(opened("", "leaf", "none"), "leaf");
    assert_eq!(opened("(weak t leaf)\n", "none", "mid"), "mid leaf");
    assert_eq!(opened("(weak t leaf)\n", "none", "leaf"), "leaf");
    assert_eq!(opened("(weak t leaf)\n", "open", "none"), "root mid leaf side");
}

#[test]
fn a_lower_allowed_set_removes_from_what_was_denied() {
    // leaf denied at the table closes mid and root with it; the lower label opens just its own descendants.
    assert_eq!(opened("(weak t noleaf)\n", "open", "none"), "root mid leaf side");
    assert_eq!(opened("(weak t noleaf)\n", "none", "open"), "root mid leaf side");
    assert_eq!(opened("(weak t noleaf)\n", "mid", "none"), "mid leaf");
    assert_eq!(opened("(weak t noleaf)\n", "leaf", "none"), "leaf");
    assert_eq!(opened("(weak t nomid)\n", "leaf", "none"), "leaf side");
    assert_eq!(opened("(weak t nomid)\n", "none", "mid"), "mid leaf side");
    assert_eq!(opened("(weak t nomid)\n", "none", "none"), "side");
    assert_eq!(opened("", "nomid", "leaf"), "leaf side");
    assert_eq!(opened("", "nomid", "open"), "root mid leaf side");
    // An upper allowed set takes nothing from a lower denied one, nor from its own.
    assert_eq!(opened("(weak t open)\n", "noleaf", "none"), "side");
    assert_eq!(opened("(weak t open)\n", "none", "noleaf"), "side");
    assert_eq!(opened("", "open", "nomid0"), "side");
    assert_eq!(opened("(weak t nomid)\n", "none", "nomid"), "side");
}

#[test]
fn the_lower_denied_set_is_added_after() {
    assert_eq!(opened("", "none", "leafnoleaf"), "");
    assert_eq!(opened("(weak t open)\n", "leafnoleaf", "none"), "side");
    assert_eq!(opened("(weak t nomid)\n", "leafnoleaf", "none"), "side");
    assert_eq!(opened("(weak t nomid)\n", "midnoleaf", "none"), "side");
    // And a label further down takes it off again.
    assert_eq!(opened("(weak t nomid)\n", "midnoleaf", "leaf"), "leaf side");
    assert_eq!(opened("(weak t noroot)\n", "open", "noside"), "mid leaf");
    assert_eq!(opened("(weak t noroot)\n", "noroot", "mid"), "mid leaf");
}

#[test]
fn merged_sets_are_not_closed_again() {
    // Were what is left of the table's denied set (root, mid) closed again, leaf would be denied after all.
    assert_eq!(opened("(weak t noleaf)\n", "leaf", "open"), "root mid leaf side");
    assert_eq!(opened("(weak t noleaf)\n", "leaf", "none"), "leaf");
    assert_eq!(opened("(weak t noside)\n", "mid", "none"), "mid leaf");
    // `noside` alone closes root and side: mid and leaf aren't below what it denies.
    assert_eq!(opened("(weak t noside)\n", "none", "open"), "root mid leaf side");
    assert_eq!(opened("(weak t open)\n", "none", "noside"), "mid leaf");
}

#[test]
fn strong_labels_decide_first() {
    // Strongly denied: closed both ways, whatever is weakly allowed.
    assert_eq!(opened("(strong t noleaf)\n", "open", "open"), "side");
    assert_eq!(opened("(strong t nomid0)\n(weak t open)\n", "mid", "leaf"), "side");
    assert_eq!(opened("(strong t noroot)\n(weak t open)\n", "open", "open"), "");
    // Strongly allowed: open whatever is weakly denied.
    assert_eq!(opened("(strong t mid)\n", "noroot", "noroot"), "mid leaf");
    assert_eq!(opened("(weak t noroot)\n(strong t leaf)\n", "noroot", "noleaf"), "leaf");
    // Strongly neither: the weak labels.
    assert_eq!(opened("(strong t leaf)\n", "open", "noside"), "mid leaf");
    assert_eq!(opened("(strong t leaf)\n", "mid", "none"), "mid leaf");
    // Denied before allowed, within the strong label too.
    assert_eq!(opened("(strong t nomid)\n", "none", "none"), "side");
    assert_eq!(opened("(strong t leafnoleaf)\n", "open", "open"), "side");
    // A weak label takes nothing from a strong one.
    assert_eq!(opened("(strong t noleaf)\n(weak t leaf)\n", "leaf", "leaf"), "");
}

#[test]
fn a_purpose_that_comes_later() {
    // Sets are over the document's whole tree, whichever line stands first.
    let doc = with("(table t nest (k num))\n(weak t nomid)\n(row t leaf (7 none))\n(purpose twig leaf)\n(purpose bud mid)\n");
    for (purpose, text) in [("twig", "(row 7)\n(end 1 0 0)\n"), ("bud", "(end 0 1 0)\n"), ("leaf", "(row 7)\n(end 1 0 0)\n"), ("mid", "(end 0 1 0)\n")] {
        assert_eq!(answer_text(&doc, &format!("(select u r {purpose} t (k))"), CLOCK), text, "{purpose}");
    }
}

/// Open to leaf: every cell of a, the second of b, the first of c, none of d.
const TABLE: &str = "\
(table t nest (k num) (w name) (z num))
(weak t open)
(row t none (1 none) (a none) (-4 none))
(row t nomid (2 none) (b mid) ((1 9) leafnoleaf))
(row t noleaf (-3 leaf) (c noside) (6 noleaf))
(row t noroot (4 none) (d none) (5 shut))
";

fn answers(query: &str, expected: &str) {
    assert_eq!(answer_text(&with(TABLE), query, CLOCK), expected, "{query}");
}

#[test]
fn a_row_is_withheld_only_for_a_closed_named_cell() {
    answers("(select u r leaf t (k))", "(row 1)\n(row -3)\n(end 2 2 0)\n");
    answers("(select u r leaf t (w))", "(row a)\n(row b)\n(end 2 2 0)\n");
    answers("(select u r leaf t (w) (gt k 0))", "(row a)\n(end 1 3 0)\n");
    answers("(select u r leaf t (K) (or (lt k 0) (ge k 0)))", "(row 1)\n(row -3)\n(end 2 2 0)\n");
    answers("(count u r leaf t)", "(end 4 0 0)\n");
    answers("(count u r leaf t (lt k 0))", "(end 1 2 1)\n");
    answers("(count u r side t (lt k 100))", "(end 3 1 0)\n");
    answers("(count u r leaf t (eq w b))", "(end 1 2 1)\n");
    answers("(count u r side t (eq w c))", "(end 0 2 2)\n");
}

#[test]
fn blanks_of_nest_tables() {
    answers("(blank u r leaf t (k w))", "(row 1 a)\n(row - b)\n(row -3 -)\n(row - -)\n(end 4 0 0)\n");
    answers("(blank u r leaf t (k w w) (ne w x))", "(row 1 a a)\n(row - b b)\n(end 2 2 0)\n");
    answers("(blank u r leaf t (w) (le k 1))", "(row a)\n(row -)\n(end 2 2 0)\n");
    answers("(blank u r side t (w k) (gt k 1))", "(row b 2)\n(end 1 1 2)\n");
    // 27 and 31 come before anything is withheld, as for other tables: "(blank u r leaf t (" is 19 bytes.
    assert_eq!(query_refused(&with(TABLE), b"(blank u r leaf t (z))", CLOCK), (27, 19, 1));
    assert_eq!(query_refused(&with(TABLE), b"(count u r leaf t (eq z 6))", CLOCK), (27, 22, 1));
}

#[test]
fn sure_and_possible() {
    answers("(sure u r leaf t (k z))", "(row 1 -4)\n(end 1 3 0)\n");
    answers("(possible u r side t (z) (gt z 5))", "(row (1 9))\n(row 6)\n(end 2 1 1)\n");
    answers("(sure u r side t (z) (gt z 5))", "(row 6)\n(end 1 1 2)\n");
}

#[test]
fn a_nest_table_gives_no_17() {
    for line in ["", "(weak t noroot)\n", "(strong t noroot)\n", "(strong t shut)\n(weak t shut)\n"] {
        let doc = with(&format!("(table t nest (k num))\n{line}(row t noroot (7 noroot))\n"));
        for purpose in ["root", "mid", "leaf", "side"] {
            assert_eq!(answer_text(&doc, &format!("(select u r {purpose} t (k))"), CLOCK), "(end 0 1 0)\n");
            assert_eq!(answer_text(&doc, &format!("(count u r {purpose} t)"), CLOCK), "(end 1 0 0)\n");
        }
        let empty = with(&format!("(table t nest (k num))\n{line}"));
        assert_eq!(answer_text(&empty, "(select u r mid t (k))", CLOCK), "(end 0 0 0)\n");
    }
    // 15, 16 and 18 as ever.
    assert_eq!(query_refused(&with(TABLE), b"(count u r leaf t (eq x 1))", CLOCK), (15, 22, 1));
    assert_eq!(query_refused(&with(TABLE), b"(count u r leaf t (eq k x))", CLOCK), (16, 24, 1));
    let mut short = [b'#'; 11];
    let refusal = reference::ask(with(TABLE).as_bytes(), b"(count u r leaf t)", CLOCK, &mut short).expect_err("an answer");
    assert_eq!((refusal.number, short), (18, [b'#'; 11]));
}

#[test]
fn a_public_line_does_nothing() {
    let head = "(table t nest (k num))\n(public t)\n";
    let doc = with(&format!("{head}(row t none (7 nomid))\n"));
    assert_eq!(answer_text(&doc, "(select u r leaf t (k))", CLOCK), "(end 0 1 0)\n");
    assert_eq!(answer_text(&doc, "(select u r side t (k))", CLOCK), "(row 7)\n(end 1 0 0)\n");
    // It is no row: weak and strong lines may follow it, and it may follow them and rows.
    assert_eq!(lines(&with(&format!("{head}(weak t open)\n(strong t open)\n(row t open (7 open))\n"))), with("").lines().count() + 5);
    assert_eq!(lines(&with("(table t nest (k num))\n(weak t open)\n(row t open (7 open))\n(public t)\n")), with("").lines().count() + 4);
    let twice = with(&format!("{head}(public t)\n"));
    assert_eq!(refused(&twice), (4, twice.len() - 3, 1));
}

#[test]
fn the_reserve() {
    // "(row 1 abcdef)\n" is 15 bytes, "(end 1 0 0)\n" 12: labels don't count, whatever is closed.
    let doc = with("(table t nest (k num) (w name))\n(strong t noroot)\n(row t noroot (1 noroot) (abcdef noroot))\n");
    assert_eq!(reference::check(doc.as_bytes()).unwrap().reserve, 27);
}

/// What `line` behind some lines is refused with: the number, and what the part says.
fn last_refused(before: &str, line: &str) -> (u32, String) {
    let head = with(before);
    lines(&head);
    let doc = format!("{head}{line}\n");
    let (number, start, len) = refused(&doc);
    assert!(start >= head.len());
    (number, doc[start..start + len].to_string())
}

#[test]
fn refused_with_25() {
    let table = "(table t nest (k num))\n";
    let whole = |line: &str| (25, line.to_string());
    // Given twice, with the same label, with another one, in another case, and with the other line between.
    for (before, line) in [
        ("(weak t open)\n", "(weak t open)"),
        ("(weak t open)\n", "(weak t shut)"),
        ("(strong t open)\n", "(strong t shut)"),
        ("(weak t open)\n(strong t open)\n", "(WEAK T Open)"),
        ("(strong t open)\n(weak t open)\n", "(Strong t open)"),
        // After a row.
        ("(row t open (1 open))\n", "(weak t open)"),
        ("(row t open (1 open))\n", "(strong t open)"),
        ("(weak t open)\n(row t open (1 open))\n(purpose more root)\n", "(strong t open)"),
        // Both.
        ("(weak t open)\n(row t open (1 open))\n", "(weak t open)"),
    ] {
        assert_eq!(last_refused(&format!("{table}{before}"), line), whole(line), "{before}{line}");
    }
    // For a table of another scheme, with rows or without.
    for other in ["(table o none (k num))", "(table o table open (k num))", "(table o column (k num open))", "(table o row (k num))", "(table o cell (k num))"] {
        for line in ["(weak o open)", "(strong o shut)"] {
            assert_eq!(last_refused(&format!("{other}\n"), line), whole(line), "{other}");
            assert_eq!(last_refused(&format!("{other}\n(public o)\n"), line), whole(line), "{other}");
        }
    }
    // "After a row" of this table: another's rows don't count.
    let rows = "(table o nest (k num))\n(row o open (1 open))\n(table p row (k num))\n(row p open 1)\n";
    assert_eq!(lines(&with(&format!("{table}{rows}(weak t open)\n(strong t open)\n"))), with("").lines().count() + 7);
    // Each table has lines of its own.
    assert_eq!(lines(&with(&format!("{table}(weak t open)\n(table o nest (k num))\n(weak o open)\n(strong o open)\n(strong t open)\n"))), with("").lines().count() + 6);
}

#[test]
fn earlier_numbers_before_25() {
    let before = "(table t nest (k num))\n(weak t open)\n(row t open (1 open))\n(table o cell (k num))\n";
    for (line, number, part) in [
        ("(weak x open)", 5, "x"),
        ("(weak t x)", 5, "x"),
        ("(strong o x)", 5, "x"),
        // T and L unknown: the leftmost.
        ("(weak x y)", 5, "x"),
        ("(weak t t)", 5, "t"),
        ("(weak open open)", 5, "open"),
        ("(weak t)", 2, "(weak t)"),
        ("(weak)", 2, "(weak)"),
        ("(weak t open shut)", 2, "(weak t open shut)"),
        ("(weak t 1)", 2, "(weak t 1)"),
        ("(weak t (open))", 2, "(weak t (open))"),
        ("(weakly t open)", 2, "(weakly t open)"),
        ("(nest t open)", 2, "(nest t open)"),
    ] {
        assert_eq!(last_refused(before, line), (number, part.to_string()), "{line}");
    }
    // Before its table the line is too early.
    assert_eq!(last_refused("", "(weak t open)"), (5, "t".to_string()));
}

#[test]
fn the_shape_of_a_nest_row() {
    let table = "(table t nest (k num) (w name))\n";
    assert_eq!(lines(&with(&format!("{table}(row t open (1 open) (a shut))\n(ROW T Open ((1 2) OPEN) (b open))\n"))), with("").lines().count() + 3);
    for (line, number, part) in [
        // 5: the first item if that is a name, each bracket's L; the leftmost of them.
        ("(row t x (1 open) (a open))", 5, "x"),
        ("(row t x (1 y) (a open))", 5, "x"),
        ("(row t open (1 y) (a z))", 5, "y"),
        ("(row t open (1 open) (a z))", 5, "z"),
        ("(row t x)", 5, "x"),
        ("(row t (1 y))", 5, "y"),
        ("(row t 1 (a y))", 5, "y"),
        ("(row t open 1 a (2 y))", 5, "y"),
        ("(row x open (1 open) (a open))", 5, "x"),
        // 7: the count, the row's label missing or no name, cells without labels.
        ("(row t)", 7, ""),
        ("(row t open)", 7, ""),
        ("(row t open (1 open))", 7, ""),
        ("(row t open (1 open) (a open) (b open))", 7, ""),
        ("(row t (1 open) (a open))", 7, ""),
        ("(row t (1 open) (a open) (a open))", 7, ""),
        ("(row t open 1 a)", 7, ""),
        ("(row t 1 a)", 7, ""),
        ("(row t open (1 open) a)", 7, ""),
        ("(row t open (1 open) open)", 7, ""),
        ("(row t open open (1 open) (a open))", 7, ""),
        ("(row t 1 (1 open) (a open))", 7, ""),
        ("(row t (1 2) (1 open) (a open))", 7, ""),
        ("(row t open (1 2) (a open))", 7, ""),
        ("(row t open (2028 2 29) (a open))", 7, ""),
        ("(row t (open open) (1 open) (a open))", 7, ""),
        // A bare name behind the first isn't looked up.
        ("(row t open (1 open) x)", 7, ""),
        // 8, 28 and 31 as in other tables.
        ("(row t open (x open) (a open))", 8, "x"),
        ("(row t open (1 open) (2 open))", 8, "2"),
        ("(row t open (1 open) ((5 4) open))", 8, "(5 4)"),
        ("(row t open ((5 4) open) (a open))", 28, "(5 4)"),
        ("(row t open ((2027 2 29) open) (a open))", 8, "(2027 2 29)"),
    ] {
        let part = if part.is_empty() { line } else { part };
        assert_eq!(last_refused(table, line), (number, part.to_string()), "{line}");
    }
    let dates = "(table d nest (k date))\n";
    assert_eq!(last_refused(dates, "(row d open ((2027 2 29) open))"), (31, "(2027 2 29)".to_string()));
    // 16 columns and so 17 labels in one row.
    let wide = |cells: usize| {
        let columns: String = (0..16).map(|n| format!(" (c{n} num)")).collect();
        let row: String = (0..cells).map(|n| format!(" ({n} open)")).collect();
        with(&format!("(table t nest{columns})\n(row t open{row})\n"))
    };
    assert_eq!(lines(&wide(16)), with("").lines().count() + 2);
    assert_eq!(refused(&wide(15)).0, 7);
    assert_eq!(refused(&wide(17)).0, 7);
    assert_eq!(answer_text(&wide(16), "(select u r leaf t (c15 c0))", CLOCK), "(row 15 0)\n(end 1 0 0)\n");
}

#[test]
fn the_table_line() {
    for line in ["(table t nest)", "(table t nest open (k num))", "(table t nest (k num open))", "(table t nests (k num))", "(table t nest k)"] {
        assert_eq!(last_refused("", line), (2, line.to_string()));
    }
    assert_eq!(lines(&with("(TABLE t NEST (k Num) (d date) (w NAME))\n(Weak T OPEN)\n(sTRONG t open)\n")), with("").lines().count() + 3);
    assert_eq!(last_refused("(table t cell (k num))\n", "(table t nest (k num))"), (4, "t".to_string()));
    assert_eq!(last_refused("", "(table t nest (k num) (K num))"), (4, "K".to_string()));
}

/// What is handed back and every byte of a buffer of 200.
fn outcome(doc: &str, query: &str) -> (Result<reference::Answer, reference::Refusal>, Vec<u8>) {
    let mut out = vec![b'#'; 200];
    let result = reference::ask(doc.as_bytes(), query.as_bytes(), CLOCK, &mut out);
    (result, out)
}

#[test]
fn closed_cells_make_no_difference() {
    let doc = with(TABLE);
    for (line, other, queries) in [
        // Closed to leaf by the row's label, though its own says nothing.
        ("(2 none)", "(-22 none)", &["(select u r leaf t (k))", "(count u r mid t (gt k 0))", "(blank u r leaf t (k w))", "(blank u r leaf t (w) (gt k 0))", "(count u r leaf t)"][..]),
        // An open cell beside it, in a row withheld; and not named.
        ("(b mid)", "(Longer mid)", &["(select u r leaf t (k w))", "(select u r leaf t (w) (gt k 0))", "(select u r leaf t (k))", "(count u r leaf t)"][..]),
        // A range, closed by its own label alone.
        ("((1 9) leafnoleaf)", "((-1 1) leafnoleaf)", &["(sure u r leaf t (z))", "(possible u r leaf t (w) (gt z 3))", "(select u r leaf t (z))"][..]),
        // Closed by its own label in spite of the table's.
        ("(c noside)", "(e noside)", &["(blank u r root t (w))", "(select u r side t (w))", "(count u r side t (eq w c))"][..]),
    ] {
        let changed = doc.replace(line, other);
        assert_ne!(doc, changed);
        for query in queries {
            assert_eq!(outcome(&doc, query), outcome(&changed, query), "{line} {query}");
        }
    }
    // Open again by its own label, though the row's denies it; and open by the table's.
    for (line, other, queries) in [
        ("(b mid)", "(x mid)", &["(select u r leaf t (w))", "(blank u r leaf t (k w))", "(count u r leaf t (eq w b))"][..]),
        ("(-3 leaf)", "(3 leaf)", &["(select u r leaf t (k))", "(blank u r leaf t (k w))"][..]),
        ("(1 none)", "(3 none)", &["(select u r root t (k))"][..]),
    ] {
        let changed = doc.replace(line, other);
        for query in queries {
            assert_ne!(outcome(&doc, query), outcome(&changed, query), "{line} {query}");
        }
    }
}

#[test]
fn rows_given_further_down() {
    // 02 claims it for other schemes alone, and it holds here too: what is open to a purpose is open to those below it.
    let labels = ["none", "open", "mid", "leaf", "nomid", "nomid0", "noleaf", "noside", "noroot", "leafnoleaf", "midnoleaf"];
    let mut opened_some = 0;
    for strong in labels {
        for weak in labels {
            for row in labels {
                for cell in ["none", "mid", "noleaf", "leafnoleaf"] {
                    let doc = with(&format!("(table t nest (k num))\n(weak t {weak})\n(strong t {strong})\n(row t {row} (7 {cell}))\n"));
                    let open = |purpose: &str| answer(&doc, &format!("(select u r {purpose} t (k))"), CLOCK).1.passed == 1;
                    let (root, mid, leaf, side) = (open("root"), open("mid"), open("leaf"), open("side"));
                    assert!(!root || (mid && side), "{strong} {weak} {row} {cell}");
                    assert!(!mid || leaf, "{strong} {weak} {row} {cell}");
                    opened_some += usize::from(root) + usize::from(leaf && !mid);
                }
            }
        }
    }
    assert!(opened_some > 500);
}
