//! 02, Q-7, "Closed by what": lines derived by hand from the request.

mod common;
use common::*;
use reference::{check, why, Refusal, Source};
use std::fs;
use std::io::Write;
use std::process::{Command, Stdio};

/// Root over mid over leaf, root over side, side over low; a label for each way to be shut, and a table of every scheme.
const DOC: &str = "\
(purpose root)
(purpose mid root)
(purpose leaf mid)
(purpose side root)
(purpose low side)
(label open (allow root) (deny))
(label shut (allow) (deny))
(label onlymid (allow mid) (deny))
(label nomid (allow root) (deny mid))
(label many (allow root) (deny low LEAF Mid))
(label both (allow mid) (deny side))
(table n none (a num))
(table p none (a num))
(public p)
(table t table nomid (a num) (b name))
(table c column (a num open) (b num many))
(table r row (a num) (b num))
(table x cell (a num) (b num))
(table y nest (a num))
(row n 1)
(row p 1)
(row t 1 z)
(row c 1 2)
(row r open 1 2)
(row r nomid 3 4)
(row x (1 shut) (2 both))
(row r onlymid 5 6)
(row x (3 many) (4 open))
(row y open (1 open))
";

/// The line printed, without its line feed.
fn printed(doc: &str, line: &str) -> String {
    let printed = String::from_utf8(why(doc.as_bytes(), line.as_bytes()).expect(line)).unwrap();
    assert!(printed.ends_with(")\n") && printed.len() <= 39, "{printed}");
    printed.trim_end_matches('\n').to_string()
}

/// The number and part of a refused line.
fn line_refused(doc: &str, line: &[u8]) -> (u32, usize, usize) {
    let Refusal { number, source, start, len } = why(doc.as_bytes(), line).expect_err("an explanation");
    assert_eq!(source, Source::Query);
    (number, start, len)
}

fn all(table: &str, row: usize, column: &str) -> [String; 5] {
    ["root", "mid", "leaf", "side", "low"].map(|purpose| printed(DOC, &format!("(why {purpose} {table} {row} {column})")))
}

#[test]
fn the_sample_document() {
    // noads denies ads: ads itself, post below it and all above it; bill is beside it.
    assert_eq!(printed(SAMPLE, "(why post sub 1 due)"), "(closed deny ads)");
    assert_eq!(printed(SAMPLE, "(why ads sub 1 due)"), "(closed deny ads)");
    assert_eq!(printed(SAMPLE, "(why all sub 1 due)"), "(closed deny ads)");
    assert_eq!(printed(SAMPLE, "(why bill sub 1 due)"), "(open)");
    // The cell's own label, not its neighbour's.
    assert_eq!(printed(SAMPLE, "(why post sub 1 who)"), "(open)");
    assert_eq!(printed(SAMPLE, "(why post sub 0 due)"), "(open)");
}

#[test]
fn tables_without_labels() {
    assert_eq!(all("n", 0, "a"), ["(closed none)"; 5]);
    assert_eq!(all("p", 0, "a"), ["(open)"; 5]);
}

#[test]
fn the_table_label() {
    let expected = ["(closed deny mid)", "(closed deny mid)", "(closed deny mid)", "(open)", "(open)"];
    assert_eq!(all("t", 0, "a"), expected);
    assert_eq!(all("t", 0, "b"), expected);
    // A `public` line on a labelled table does nothing.
    let public = format!("{DOC}(public t)\n");
    assert_eq!(printed(&public, "(why leaf t 0 a)"), "(closed deny mid)");
}

#[test]
fn the_column_label() {
    assert_eq!(all("c", 0, "a"), ["(open)"; 5]);
    // many denies low, LEAF, Mid in that order: root and side are above low, low is it; mid is above LEAF, and leaf is it.
    let expected = ["(closed deny low)", "(closed deny LEAF)", "(closed deny LEAF)", "(closed deny low)", "(closed deny low)"];
    assert_eq!(all("c", 0, "b"), expected);
}

#[test]
fn the_row_label() {
    // r's rows stand among others' and are counted from 0 by themselves.
    assert_eq!(all("r", 0, "a"), ["(open)"; 5]);
    assert_eq!(all("r", 1, "b"), ["(closed deny mid)", "(closed deny mid)", "(closed deny mid)", "(open)", "(open)"]);
    // onlymid allows mid: what is above it, or beside it, descends from no allowed one.
    assert_eq!(all("r", 2, "a"), ["(closed allow)", "(open)", "(open)", "(closed allow)", "(closed allow)"]);
}

#[test]
fn the_cell_label() {
    assert_eq!(all("x", 0, "a"), ["(closed allow)"; 5]);
    // both allows mid and denies side: root is above side, and where it denies nothing that is related the allowed set decides.
    assert_eq!(all("x", 0, "b"), ["(closed deny side)", "(open)", "(open)", "(closed deny side)", "(closed deny side)"]);
    assert_eq!(all("x", 1, "a")[1], "(closed deny LEAF)");
    assert_eq!(all("x", 1, "b"), ["(open)"; 5]);
}

#[test]
fn a_denied_purpose_before_the_allowed_set() {
    // Denied and not allowed either: the denied one is told.
    let doc = format!("{BASE}(label l (allow side) (deny leaf))\n(table t table l (k num))\n(row t 1)\n");
    assert_eq!(printed(&doc, "(why mid t 0 k)"), "(closed deny leaf)");
    assert_eq!(printed(&doc, "(why root t 0 k)"), "(closed deny leaf)");
    assert_eq!(printed(&doc, "(why side t 0 k)"), "(open)");
    // Allowed and denied both: denied. A denied one that is unrelated isn't told, though it is the first.
    let doc = format!("{BASE}(label l (allow mid) (deny side mid))\n(table t table l (k num))\n(row t 1)\n");
    assert_eq!(printed(&doc, "(why mid t 0 k)"), "(closed deny mid)");
    assert_eq!(printed(&doc, "(why root t 0 k)"), "(closed deny side)");
}

#[test]
fn names_without_case() {
    assert_eq!(printed(DOC, "(WHY Leaf C 0 B)"), "(closed deny LEAF)");
    assert_eq!(printed(DOC, "(wHy ROOT x 0 B)"), "(closed deny side)");
    // As the label line wrote it, and neither as the purpose line nor as the why line did.
    let doc = "(purpose Root)\n(label l (allow ROOT) (deny rOOT))\n(table t table L (k num))\n(row T 1)\n";
    assert_eq!(printed(doc, "(why root t 0 k)"), "(closed deny rOOT)");
}

#[test]
fn the_longest_line() {
    let name = "n".repeat(24);
    let doc = format!("(purpose {name})\n(label l (allow) (deny {name}))\n(table t table l (k num))\n(row t 1)\n");
    let line = format!("(why {name} t 0 k)");
    assert_eq!(why(doc.as_bytes(), line.as_bytes()).unwrap().len(), 39);
}

#[test]
fn other_lines_are_11() {
    for line in [
        "", "why", "()", "(why)", "(why root)", "(why root t 0)", "(why root t 0 a a)", "(why root t a 0)", "(why root t a)", "(why 0 t 0 a)",
        "(why root 0 0 a)", "(why root t 0 0)", "(why root t (0) a)", "(why root t 0 (a))", "(why (root) t 0 a)", "((why root t 0 a))",
        "(why root t 00 a)", "(why root t -0 a)", "(why root t +1 a)", "(why root t 9223372036854775808 a)",
        "(why root t -9223372036854775809 a)", " (why root t 0 a)", "(why root t 0 a) ", "(why root t 0 a)\r", "(why root t 0 a)\n",
        "(why  root t 0 a)", "(why root t 0 a", "(whys root t 0 a)", "(select root t 0 a)", "(clock 2028 366 10)", "(count u r root t)",
        "(why root t 0 of)x", "(why root t (0 1) a)", "(why root t - a)",
    ] {
        assert_eq!(line_refused(DOC, line.as_bytes()), (11, 0, line.len()), "{line}");
    }
    // A name of 25 bytes is none, and lines may be of any length.
    let line = format!("(why {} t 0 a)", "n".repeat(25));
    assert_eq!(line_refused(DOC, line.as_bytes()), (11, 0, line.len()));
    assert_eq!(line_refused(DOC, &[b'('; 200_000]), (11, 0, 200_000));
    assert_eq!(line_refused(DOC, b"(why root t 0 \xe9)"), (11, 0, 16));
}

#[test]
fn unknown_names_are_23() {
    assert_eq!(line_refused(DOC, b"(why nobody t 0 a)"), (23, 5, 6));
    assert_eq!(line_refused(DOC, b"(why root nobody 0 a)"), (23, 10, 6));
    assert_eq!(line_refused(DOC, b"(why root t 0 nobody)"), (23, 14, 6));
    // The leftmost of several; a column of another table is unknown.
    assert_eq!(line_refused(DOC, b"(why no nobody 0 no)"), (23, 5, 2));
    assert_eq!(line_refused(DOC, b"(why root nobody 0 no)"), (23, 10, 6));
    assert_eq!(line_refused(DOC, b"(why root n 0 b)"), (23, 14, 1));
    // An unknown column where the row is none either, left of it.
    assert_eq!(line_refused(DOC, b"(why root t 99 nobody)"), (23, 15, 6));
    assert_eq!(line_refused(DOC, b"(why root t -1 nobody)"), (23, 15, 6));
    // On a nest table too, and kinds are apart: a label is no purpose.
    assert_eq!(line_refused(DOC, b"(why root y 0 b)"), (23, 14, 1));
    assert_eq!(line_refused(DOC, b"(why open y 0 a)"), (23, 5, 4));
}

#[test]
fn no_such_row_is_24() {
    assert_eq!(line_refused(DOC, b"(why root t 1 a)"), (24, 12, 1));
    assert_eq!(line_refused(DOC, b"(why root r 3 a)"), (24, 12, 1));
    assert_eq!(line_refused(DOC, b"(why root r -1 a)"), (24, 12, 2));
    assert_eq!(line_refused(DOC, b"(why root r 9223372036854775807 a)"), (24, 12, 19));
    assert_eq!(line_refused(DOC, b"(why root r -9223372036854775808 a)"), (24, 12, 20));
    assert_eq!(line_refused(DOC, b"(why root r 4294967296 a)"), (24, 12, 10));
    // A table without rows has none.
    let doc = format!("{DOC}(table e table open (a num))\n");
    assert_eq!(line_refused(&doc, b"(why root e 0 a)"), (24, 12, 1));
    // Before 26.
    assert_eq!(line_refused(DOC, b"(why root y 1 a)"), (24, 12, 1));
}

#[test]
fn a_nest_table_is_26() {
    assert_eq!(line_refused(DOC, b"(why root y 0 a)"), (26, 10, 1));
    assert_eq!(line_refused(DOC, b"(why low Y 0 A)"), (26, 9, 1));
    // Whatever its lines say.
    let doc = format!("{BASE}(table long nest (k num))\n(weak long open)\n(strong long shut)\n(public long)\n(row long open (1 shut))\n");
    assert_eq!(line_refused(&doc, b"(why root long 0 k)"), (26, 10, 4));
}

#[test]
fn a_refused_document_first() {
    let refusal = why(b"(purpose a)\n(purpose b)\n", b"(why a t 0 k)").unwrap_err();
    assert_eq!((refusal.number, refusal.source, refusal.start, refusal.len), (6, Source::Document, 12, 11));
    let refusal = why(b"(purpose a)\n(purpose b)\n", b"no why line").unwrap_err();
    assert_eq!(refusal.number, 6);
    assert_eq!(line_refused("", b"(why a t 0 k)"), (23, 5, 1));
}

/// `(open)` is printed exactly where a select of that column alone gives the row: for every cell of every scheme but nest.
#[test]
fn open_where_a_select_gives_it() {
    let doc = DOC.replace("(label open", "(role r)\n(user u r)\n(cond-role c r (gt year 0))\n(grant root c)\n(label open");
    assert_eq!(check(doc.as_bytes()).unwrap().lines, 33);
    for (table, rows) in [("n", 1), ("p", 1), ("t", 1), ("c", 1), ("r", 3), ("x", 2)] {
        for column in if "np".contains(table) { &["a"][..] } else { &["a", "b"] } {
            for purpose in ["root", "mid", "leaf", "side", "low"] {
                let open = (0..rows).filter(|row| printed(&doc, &format!("(why {purpose} {table} {row} {column})")) == "(open)").count();
                let mut out = [0; 100];
                let query = format!("(select u r {purpose} {table} ({column}))");
                let passed = reference::ask(doc.as_bytes(), query.as_bytes(), CLOCK, &mut out).map_or(0, |answer| answer.passed);
                assert_eq!(open, passed, "{query}");
            }
        }
    }
}

fn run(doc: &str, input: &[u8]) -> String {
    let mut output = Vec::new();
    reference::program::run_why(doc.as_bytes(), input, &mut output).unwrap();
    String::from_utf8(output).unwrap()
}

#[test]
fn the_tool_over_texts() {
    // Every line is a why line, the first one too; the last may lack its line feed.
    let input = b"(why post sub 1 due)\n\n(why bill sub 1 due)\n(clock 2028 366 10)\n(why post sub 3 due)";
    assert_eq!(run(SAMPLE, input), "(closed deny ads)\n(refused 11 query 0 0)\n(open)\n(refused 11 query 0 19)\n(refused 24 query 14 1)\n");
    assert_eq!(run(SAMPLE, b""), "");
    // A refused document prints its one line whatever the input holds.
    assert_eq!(run("(purpose a)\n(purpose b)\n", input), "(refused 6 document 12 11)\n");
    assert_eq!(run("(purpose a)\n(purpose b)\n", b""), "(refused 6 document 12 11)\n");
}

/// The program itself, in a folder with or without a policy.
fn run_program(folder: &str, policy: Option<&str>, input: &[u8]) -> String {
    let folder = std::path::Path::new(env!("CARGO_TARGET_TMPDIR")).join(folder);
    let _ = fs::remove_dir_all(&folder);
    fs::create_dir_all(&folder).unwrap();
    if let Some(policy) = policy {
        fs::write(folder.join("policy.txt"), policy).unwrap();
    }
    let mut child = Command::new(env!("CARGO_BIN_EXE_explaining"))
        .current_dir(&folder)
        .stdin(Stdio::piped())
        .stdout(Stdio::piped())
        .spawn()
        .unwrap();
    child.stdin.take().unwrap().write_all(input).unwrap();
    let output = child.wait_with_output().unwrap();
    assert!(output.status.success());
    String::from_utf8(output.stdout).unwrap()
}

#[test]
fn the_program() {
    let input = b"(why post sub 1 due)\n(why post sub 0 due)";
    assert_eq!(run_program("explaining-with", Some(SAMPLE), input), "(closed deny ads)\n(open)\n");
    // Taken as empty: no purpose is known.
    assert_eq!(run_program("explaining-without", None, input), "(refused 23 query 5 4)\n(refused 23 query 5 4)\n");
}
