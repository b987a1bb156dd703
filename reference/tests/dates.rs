//! 02, Q-14: "A `date` column holds `(YEAR MONTH DAY)`, and comparisons take such constants; the answer prints the same form."

mod common;
use common::*;

/// Dates of every scheme; Fay's are closed to root, mid and leaf (`nomid`).
const TABLES: &str = "\
(table r row (who name) (born date) (due num))
(row r open Ida (2000 2 29) 5)
(row r open Bo (1999 12 31) 7)
(row r open Cy (2000 3 1) 7)
(row r open Dot (1 1 1) 0)
(row r open Eve (9999 12 31) 1)
(row r nomid Fay (2000 2 29) 3)
(table e cell (who name) (born DATE))
(row e (Ida open) ((2028 2 9) open))
(row e (Bo open) ((2028 10 1) nomid))
(row e (Cy nomid) ((2027 12 31) open))
(table c column (who name open) (born date nomid))
(row c Gus (2028 2 29))
(table l table open (born Date))
(row l (2024 2 29))
(row l (2028 2 29))
(table m none (born date) (due num))
(row m (2024 2 29) (1 5))
(public m)
";

fn doc() -> String {
    format!("{BASE}{TABLES}")
}

/// The names that a query of table r gives with this condition, for leaf, by every word that has columns.
fn passes(condition: &str, names: &[&str]) {
    let rows: String = names.iter().map(|name| format!("(row {name})\n")).collect();
    let expected = format!("{rows}(end {} 1 {})\n", names.len(), 5 - names.len());
    for word in ["select", "blank", "sure", "possible"] {
        assert_eq!(answer_text(&doc(), &format!("({word} u r leaf r (who) {condition})"), CLOCK), expected, "{word} {condition}");
    }
    let counted = format!("(end {} 1 {})\n", names.len(), 5 - names.len());
    assert_eq!(answer_text(&doc(), &format!("(count u r leaf r {condition})"), CLOCK), counted, "{condition}");
}

#[test]
fn comparisons() {
    passes("(eq born (2000 2 29))", &["Ida"]);
    passes("(ne born (2000 2 29))", &["Bo", "Cy", "Dot", "Eve"]);
    passes("(lt born (2000 2 29))", &["Bo", "Dot"]);
    passes("(le born (2000 2 29))", &["Ida", "Bo", "Dot"]);
    passes("(gt born (2000 2 29))", &["Cy", "Eve"]);
    passes("(ge born (2000 2 29))", &["Ida", "Cy", "Eve"]);
    // The year before the month, the month before the day.
    passes("(lt born (2000 1 1))", &["Bo", "Dot"]);
    passes("(gt born (1999 12 30))", &["Ida", "Bo", "Cy", "Eve"]);
    passes("(gt born (2000 2 28))", &["Ida", "Cy", "Eve"]);
    passes("(lt born (2000 3 2))", &["Ida", "Bo", "Cy", "Dot"]);
    passes("(ge born (1 1 1))", &["Ida", "Bo", "Cy", "Dot", "Eve"]);
    passes("(lt born (1 1 1))", &[]);
    passes("(gt born (9999 12 30))", &["Eve"]);
    passes("(gt born (9999 12 31))", &[]);
}

#[test]
fn conditions() {
    passes("(and (ge born (2000 1 1)) (lt born (2001 1 1)))", &["Ida", "Cy"]);
    passes("(not (ge born (2000 2 29)))", &["Bo", "Dot"]);
    passes("(or (eq born (1 1 1)) (gt due 5))", &["Bo", "Cy", "Dot"]);
    passes("(not (or (EQ Born (1 1 1)) (not (gt due 5))))", &["Bo", "Cy"]);
}

#[test]
fn printed_as_written() {
    let rows = "(row (2000 2 29) Ida)\n(row (1999 12 31) Bo)\n(row (2000 3 1) Cy)\n(row (1 1 1) Dot)\n(row (9999 12 31) Eve)\n(end 5 1 0)\n";
    for word in ["select", "blank", "sure", "possible"] {
        assert_eq!(answer_text(&doc(), &format!("({word} u r leaf r (born who))"), CLOCK), rows);
    }
    assert_eq!(answer_text(&doc(), "(select u r leaf e (born BORN))", CLOCK), "(row (2028 2 9) (2028 2 9))\n(row (2027 12 31) (2027 12 31))\n(end 2 1 0)\n");
    // A closed cell that is only selected, and one in the condition.
    assert_eq!(answer_text(&doc(), "(blank u r leaf e (who born))", CLOCK), "(row Ida (2028 2 9))\n(row Bo -)\n(row - (2027 12 31))\n(end 3 0 0)\n");
    assert_eq!(answer_text(&doc(), "(blank u r leaf e (who) (lt born (2028 1 1)))", CLOCK), "(row -)\n(end 1 1 1)\n");
    // Beside a range, which sure and possible take.
    assert_eq!(answer_text(&doc(), "(sure u r leaf m (born due) (and (eq born (2024 2 29)) (gt due 0)))", CLOCK), "(row (2024 2 29) (1 5))\n(end 1 0 0)\n");
    assert_eq!(answer_text(&doc(), "(select u r leaf m (born))", CLOCK), "(row (2024 2 29))\n(end 1 0 0)\n");
    assert_eq!(answer_text(&doc(), "(count u r leaf l (gt born (2024 2 29)))", CLOCK), "(end 1 0 1)\n");
}

#[test]
fn number_31_in_a_document() {
    // "(table n none (a date))\n" is 24 bytes, "(row n " 7.
    let none = "(table n none (a date))\n";
    let of = |date: &str| format!("{none}(row n {date})\n");
    for good in ["(1 1 1)", "(9999 12 31)", "(2000 2 29)", "(2024 2 29)", "(2028 2 29)", "(1900 2 28)", "(2100 2 28)", "(2027 4 30)", "(2027 1 31)", "(4 2 29)"] {
        assert_eq!(lines(&of(good)), 2, "{good}");
    }
    for bad in [
        "(1900 2 29)", "(2100 2 29)", "(2027 2 29)", "(2000 2 30)", "(2028 0 1)", "(2028 13 1)", "(2028 1 0)", "(2028 4 31)", "(2028 12 32)", "(0 1 1)",
        "(10000 1 1)", "(-1 1 1)", "(2028 -1 1)", "(2028 1 -1)", "(-4 2 29)", "(9223372036854775807 1 1)", "(2028 -9223372036854775808 1)",
        "(2028 1 9223372036854775807)", "(18446744073709551 1 1)", "(4294969324 1 1)", "(2028 257 1)", "(2028 1 257)",
    ] {
        assert_eq!(refused(&of(bad)), (31, 31, bad.len()), "{bad}");
    }
    // The leftmost; behind 8 and 28, wherever these stand on the line.
    let three = "(table n none (a date) (b num) (c date))\n";
    let at = |row: &str| refused(&format!("{three}{row}\n"));
    assert_eq!(at("(row n (2027 2 29) 1 (0 1 1))"), (31, 48, 11));
    assert_eq!(at("(row n (2027 2 28) 1 (0 1 1))"), (31, 62, 7));
    assert_eq!(at("(row n (2027 2 29) x (0 1 1))"), (8, 60, 1));
    assert_eq!(at("(row n (2027 2 29) (5 1) (0 1 1))"), (28, 60, 5));
    assert_eq!(at("(row n (2027 2 29) (1 5) (0 1 1))"), (31, 48, 11));
    assert_eq!(at("(row n (2027 2 29) 1 5)"), (8, 62, 1));
    assert_eq!(at("(row n (2027 2 29) 1)"), (7, 41, 21));
    // In a cell table at the date, not at the bracket around it; the first failing line counts.
    let cell = "(label l (allow) (deny))\n(table e cell (a date))\n";
    assert_eq!(refused(&format!("{cell}(row e ((2027 2 29) l))\n(row e (x l))\n")), (31, 57, 11));
    assert_eq!(refused(&format!("{cell}(row e ((2027 2 29) m))\n")), (5, 69, 1));
}

#[test]
fn number_8() {
    // "(table n none (a num) (b name) (c date))\n" is 41 bytes, "(row n " 7.
    let none = "(table n none (a num) (b name) (c date))\n";
    let at = |row: &str| refused(&format!("{none}{row}\n"));
    assert_eq!(lines(&format!("{none}(row n 1 x (2028 2 29))\n(row n (1 5) x (2028 2 29))\n")), 3);
    assert_eq!(at("(row n (2028 2 29) x (2028 2 29))"), (8, 48, 11));
    assert_eq!(at("(row n (2027 2 29) x (2028 2 29))"), (8, 48, 11));
    assert_eq!(at("(row n 1 (2028 2 29) (2028 2 29))"), (8, 50, 11));
    assert_eq!(at("(row n 1 x 2028)"), (8, 52, 4));
    assert_eq!(at("(row n 1 x today)"), (8, 52, 5));
    assert_eq!(at("(row n 1 x (1 5))"), (8, 52, 5));
    assert_eq!(at("(row n 1 x (5 1))"), (8, 52, 5));
    assert_eq!(at("(row n (5 1) x (1 5))"), (8, 56, 5));
}

#[test]
fn forms_of_rows() {
    let none = "(table n none (a date) (b name))\n";
    // 2: four numbers, a name among them, a number out of range, a bracket within, a space too many.
    for row in [
        "(row n (1 2 3 4) x)", "(row n (2028 feb 1) x)", "(row n (x 2 3) x)", "(row n (1 2 x) x)", "(row n (2028 02 9) x)", "(row n (2028 2 -0) x)",
        "(row n (2028 2 9223372036854775808) x)", "(row n ((2028 2 9)) x)", "(row n ((2028 2 9) (1 2 3)) x)", "(row n (2028  2 9) x)",
        "(row n 2028-2-9 x)", "(row n ((2028 2 9) x y) x)", "(row n ((2028 2 9) 5) x)",
    ] {
        assert_eq!(refused(&format!("{none}{row}\n")), (2, none.len(), row.len()), "{row}");
    }
    // 7: bare in a cell table, with a label elsewhere, in place of a row's label, one too many. 5 comes first: a label unknown.
    let doc = format!("{BASE}(table e cell (a date) (b date))\n(table r row (a date))\n(table t table open (a date))\n");
    for row in [
        "(row e (2028 2 9) ((2028 2 9) open))", "(row e (2028 2 9) (2028 2 9))", "(row r (2028 2 9))", "(row r (2028 2 9) (2028 2 9))",
        "(row t ((2028 2 9) open))", "(row r open ((2028 2 9) open))", "(row t (2028 2 9) (2028 2 9))", "(row e (0 0 0) ((2028 2 9) open))",
    ] {
        assert_eq!(refused(&format!("{doc}{row}\n")), (7, doc.len(), row.len()), "{row}");
    }
    assert_eq!(refused(&format!("{doc}(row e (2028 2 9) ((2028 2 9) opem))\n")), (5, doc.len() + 30, 4));
    assert_eq!(lines(&format!("{doc}(row e ((2028 2 9) open) ((2028 2 29) Shut))\n(row r open (1 1 1))\n(row t (1 1 1))\n")), 17);
}

#[test]
fn forms_of_other_lines() {
    // "(role r)\n(attr r a num)\n(attr r n name)\n" is 40 bytes.
    let role = "(role r)\n(attr r a num)\n(attr r n name)\n";
    for line in ["(attr r b date)", "(attr r b DATE)", "(user u r (a (2028 2 9)) (n x))", "(user u r (a (0 0 0)) (n x))", "(cond-role c r (eq a (1 2)))", "(cond-role c r (eq a (1 2 3 4)))", "(cond-role c r (eq (1 2 3) a))", "(table t dates (a date))", "(table t none (a dates))"] {
        assert_eq!(refused(&format!("{role}{line}\n")), (2, 40, line.len()), "{line}");
    }
    // No attribute is a date: 8 at the bracket, existing or not; the operator, where that is wrong too, stands left of it.
    for (line, at, length) in [
        ("(cond-role c r (eq a (2028 2 9)))", 21, 10), ("(cond-role c r (eq a (2027 2 29)))", 21, 11), ("(cond-role c r (lt year (0 0 0)))", 24, 7),
        ("(cond-role c r (eq n (2028 2 9)))", 21, 10), ("(cond-role c r (lt n (2028 2 9)))", 16, 2), ("(cond-role c r (or (eq a 1) (eq a (-1 0 0))))", 34, 8),
    ] {
        assert_eq!(refused(&format!("{role}{line}\n")), (8, 40 + at, length), "{line}");
    }
    assert_eq!(refused(&format!("{role}(cond-role c r (eq b (2028 2 9)))\n")), (5, 59, 1));
    // A name may be called so.
    assert_eq!(lines("(purpose date)\n(role date)\n(attr date date name)\n(user date date (date date))\n(table date none (date date))\n(row date (2028 2 9))\n"), 6);
}

#[test]
fn depth() {
    // A date's bracket inside a comparison counts: 13 nots below the form, the comparison at 15, the date at 16.
    let deep = |nots: usize, inner: &str| format!("{}{inner}{}", "(not ".repeat(nots), ")".repeat(nots));
    let role = "(role r)\n";
    let line = |nots: usize| format!("(cond-role c r {})", deep(nots, "(eq year (2028 2 9))"));
    assert_eq!(refused(&format!("{role}{}\n", line(13))), (8, 9 + 15 + 65 + 9, 10));
    assert_eq!(refused(&format!("{role}{}\n", line(14))), (2, 9, line(14).len()));
    let query = |nots: usize, date: &str| format!("(count u r leaf r {})", deep(nots, &format!("(eq born {date})")));
    assert_eq!(answer_text(&doc(), &query(13, "(2000 2 29)"), CLOCK), "(end 4 1 1)\n");
    assert_eq!(query_refused(&doc(), query(13, "(0 1 1)").as_bytes(), CLOCK), (31, 18 + 65 + 9, 7));
    assert_eq!(query_refused(&doc(), query(14, "(2000 2 29)").as_bytes(), CLOCK), (11, 0, query(14, "(2000 2 29)").len()));
}

#[test]
fn refusals_of_queries() {
    let at = |query: &str| query_refused(&doc(), query.as_bytes(), CLOCK);
    // "(count u r leaf r (eq born " is 27 bytes.
    for bad in ["(1900 2 29)", "(2100 2 29)", "(2000 2 30)", "(2028 0 1)", "(2028 13 1)", "(2028 1 0)", "(2028 4 31)", "(0 1 1)", "(10000 1 1)", "(-1 -1 -1)"] {
        assert_eq!(at(&format!("(count u r leaf r (eq born {bad}))")), (31, 27, bad.len()), "{bad}");
    }
    // Evaluated or not, the leftmost.
    assert_eq!(at("(count u r leaf r (or (ge due 0) (eq born (0 1 1)) (eq born (0 1 1))))"), (31, 42, 7));
    // 16, wherever it stands, and 27 come before, 17 and 18 behind.
    assert_eq!(at("(count u r leaf r (eq born 2028))"), (16, 27, 4));
    assert_eq!(at("(count u r leaf r (eq born today))"), (16, 27, 5));
    assert_eq!(at("(count u r leaf r (eq due (2028 2 9)))"), (16, 26, 10));
    assert_eq!(at("(count u r leaf r (eq due (2027 2 29)))"), (16, 26, 11));
    assert_eq!(at("(count u r leaf r (eq who (2028 2 9)))"), (16, 26, 10));
    assert_eq!(at("(count u r leaf r (lt who (2028 2 9)))"), (16, 19, 2));
    assert_eq!(at("(count u r leaf r (or (eq born (0 1 1)) (eq due x)))"), (16, 48, 1));
    assert_eq!(at("(select u r leaf m (due) (eq born (0 1 1)))"), (27, 20, 3));
    assert_eq!(at("(sure u r leaf m (due) (eq born (0 1 1)))"), (31, 32, 7));
    assert_eq!(at("(select u r leaf c (who) (eq born (0 1 1)))"), (31, 34, 7));
    assert_eq!(at("(select u r leaf c (who) (eq born (1 1 1)))"), (17, 29, 4));
    assert_eq!(at("(count u r leaf r (or (eq born (0 1 1)) (eq no 1)))"), (15, 44, 2));
    // 11: what is no date, and dates elsewhere.
    for query in [
        "(count u r leaf r (eq born (2028 2)))", "(count u r leaf r (eq born (2028 2 9 1)))", "(count u r leaf r (eq born (2028 feb 9)))", "(count u r leaf r (eq born ((2028 2 9))))",
        "(count u r leaf r (2028 2 9))", "(select u r leaf r ((2028 2 9)))", "(count u r leaf r (eq (2028 2 9) born))", "(count u r leaf r (eq born (2028 02 9)))",
    ] {
        assert_eq!(at(query), (11, 0, query.len()), "{query}");
    }
}

#[test]
fn the_reserve_counts_a_date_as_written() {
    let reserve = |doc: &str| reference::check(doc.as_bytes()).unwrap().reserve;
    // "(row (2028 2 9))" and a line feed are 17 bytes, the end line 12.
    assert_eq!(reserve("(table n none (a date))\n(row n (2028 2 9))\n"), 29);
    assert_eq!(reserve("(table n none (a date) (b num))\n(row n (1 1 1) (1 5))\n"), 5 + 7 + 1 + 5 + 2 + 12);
    assert_eq!(reserve(&doc()), answer_text(&doc(), "(select u r side r (due born who))", CLOCK).len());
}

/// 02: "The comma-separated reader takes no dates."
#[test]
fn lists_take_no_dates() {
    for file in ["(2028 2 9)\n", "\"(2028 2 9)\"\n", "2028-02-09\n", "2028 2 9\n"] {
        let refusal = reference::measure_import(file.as_bytes(), b"t", b"l").expect_err(file);
        assert_eq!((refusal.number, refusal.start, refusal.len), (20, 0, 0), "{file}");
    }
}

/// A date closed to the purpose may be another date, and every outcome is the same.
#[test]
fn closed_dates_make_no_difference() {
    let other = doc().replace("Fay (2000 2 29)", "Fay (1 12 31)").replace("(2028 10 1) nomid", "(9999 1 1) nomid").replace("Gus (2028 2 29)", "Gus (2028 3 1)");
    for query in [
        "(select u r leaf r (who born))", "(count u r leaf r (eq born (2000 2 29)))", "(blank u r leaf e (born))", "(sure u r leaf e (born) (gt born (2028 1 1)))", "(select u r leaf c (who))",
    ] {
        assert_eq!(answer(&doc(), query, CLOCK), answer(&other, query, CLOCK), "{query}");
    }
    assert_eq!(query_refused(&doc(), b"(select u r leaf c (born))", CLOCK), query_refused(&other, b"(select u r leaf c (born))", CLOCK));
    assert_ne!(answer(&doc(), "(select u r side r (born))", CLOCK), answer(&other, "(select u r side r (born))", CLOCK));
}
