//! 02, Q-12: "A `num` cell's value may be `(LOW HIGH)`, LOW at most HIGH."

mod common;
use common::*;

/// Amounts known, known to a range, and closed to root, mid and leaf (`nomid`) or to all (`shut`).
const TABLES: &str = "\
(table r row (who name) (due num))
(row r open Ida 5)
(row r open Bo (3 8))
(row r open Cy (5 5))
(row r open Dot (-3 -3))
(row r open Eve (-9223372036854775808 9223372036854775807))
(row r nomid Fay (6 7))
(table e cell (who name) (due num))
(row e (Ida open) ((1 4) open))
(row e (Bo open) ((1 9) nomid))
(row e (Cy nomid) (7 open))
(table p row (who name) (due num) (lot num))
(row p open Ida 5 (1 2))
";

fn doc() -> String {
    format!("{BASE}{TABLES}")
}

/// The names that a sure and a possible query of table r give, with this condition, for leaf.
fn passes(condition: &str, sure: &[&str], possible: &[&str]) {
    for (word, names) in [("sure", sure), ("possible", possible)] {
        let rows: String = names.iter().map(|name| format!("(row {name})\n")).collect();
        let expected = format!("{rows}(end {} 1 {})\n", names.len(), 5 - names.len());
        assert_eq!(answer_text(&doc(), &format!("({word} u r leaf r (who) {condition})"), CLOCK), expected, "{word} {condition}");
    }
}

#[test]
fn comparisons() {
    passes("(eq due 5)", &["Ida", "Cy"], &["Ida", "Bo", "Cy", "Eve"]);
    passes("(ne due 5)", &["Dot"], &["Bo", "Dot", "Eve"]);
    passes("(lt due 5)", &["Dot"], &["Bo", "Dot", "Eve"]);
    passes("(le due 5)", &["Ida", "Cy", "Dot"], &["Ida", "Bo", "Cy", "Dot", "Eve"]);
    passes("(gt due 5)", &[], &["Bo", "Eve"]);
    passes("(ge due 5)", &["Ida", "Cy"], &["Ida", "Bo", "Cy", "Eve"]);
    // The ends themselves.
    passes("(ge due 3)", &["Ida", "Bo", "Cy"], &["Ida", "Bo", "Cy", "Eve"]);
    passes("(gt due 3)", &["Ida", "Cy"], &["Ida", "Bo", "Cy", "Eve"]);
    passes("(le due 8)", &["Ida", "Bo", "Cy", "Dot"], &["Ida", "Bo", "Cy", "Dot", "Eve"]);
    passes("(eq due 8)", &[], &["Bo", "Eve"]);
    passes("(ne due 9)", &["Ida", "Bo", "Cy", "Dot"], &["Ida", "Bo", "Cy", "Dot", "Eve"]);
    // The whole of the numbers.
    passes("(ge due -9223372036854775808)", &["Ida", "Bo", "Cy", "Dot", "Eve"], &["Ida", "Bo", "Cy", "Dot", "Eve"]);
    passes("(lt due -9223372036854775808)", &[], &[]);
    passes("(gt due 9223372036854775806)", &[], &["Eve"]);
    passes("(eq due 9223372036854775807)", &[], &["Eve"]);
}

#[test]
fn conditions() {
    // "`(not c)` is sure if c isn't possible, possible if c isn't sure".
    passes("(not (lt due 5))", &["Ida", "Cy"], &["Ida", "Bo", "Cy", "Eve"]);
    passes("(not (not (lt due 5)))", &["Dot"], &["Bo", "Dot", "Eve"]);
    passes("(not (eq due 5))", &["Dot"], &["Bo", "Dot", "Eve"]);
    // On each separately: true of every number, and yet not sure.
    passes("(or (lt due 5) (ge due 5))", &["Ida", "Cy", "Dot"], &["Ida", "Bo", "Cy", "Dot", "Eve"]);
    // Of no number, and yet possible.
    passes("(and (lt due 5) (ge due 5))", &[], &["Bo", "Eve"]);
    passes("(not (and (lt due 5) (ge due 5)))", &["Ida", "Cy", "Dot"], &["Ida", "Bo", "Cy", "Dot", "Eve"]);
    // Names are neither more nor less.
    passes("(eq who bo)", &["Bo"], &["Bo"]);
    passes("(not (or (eq who Bo) (gt due 0)))", &["Dot"], &["Dot", "Eve"]);
}

#[test]
fn without_a_condition_all_rows_pass() {
    let rows = "(row Ida 5)\n(row Bo (3 8))\n(row Cy (5 5))\n(row Dot (-3 -3))\n(row Eve (-9223372036854775808 9223372036854775807))\n(end 5 1 0)\n";
    for word in ["sure", "possible", "SURE", "Possible"] {
        assert_eq!(answer_text(&doc(), &format!("({word} u r leaf r (who due))"), CLOCK), rows);
    }
    assert_eq!(answer_text(&doc(), "(sure u r leaf r (due due) (eq who bo))", CLOCK), "(row (3 8) (3 8))\n(end 1 1 4)\n");
}

#[test]
fn rows_are_withheld_as_for_select() {
    assert_eq!(answer_text(&doc(), "(sure u r side r (who) (ge due 6))", CLOCK), "(row Fay)\n(end 1 0 5)\n");
    assert_eq!(answer_text(&doc(), "(sure u r leaf e (who))", CLOCK), "(row Ida)\n(row Bo)\n(end 2 1 0)\n");
    assert_eq!(answer_text(&doc(), "(possible u r leaf e (who due))", CLOCK), "(row Ida (1 4))\n(end 1 2 0)\n");
    assert_eq!(answer_text(&doc(), "(possible u r leaf e (due) (gt due 4))", CLOCK), "(row 7)\n(end 1 1 1)\n");
    assert_eq!(answer_text(&doc(), "(sure u r side e (due) (or (eq who bo) (gt due 0)))", CLOCK), "(row (1 4))\n(row (1 9))\n(row 7)\n(end 3 0 0)\n");
}

#[test]
fn number_27() {
    // "(select u r leaf r (" is 20 bytes, "(select u r leaf r (who) (eq " 29, "(count u r leaf r (eq " 22.
    assert_eq!(query_refused(&doc(), b"(select u r leaf r (who due))", CLOCK), (27, 24, 3));
    assert_eq!(query_refused(&doc(), b"(select u r leaf r (due who Due))", CLOCK), (27, 20, 3));
    assert_eq!(query_refused(&doc(), b"(select u r leaf r (who) (eq DUE 5))", CLOCK), (27, 29, 3));
    assert_eq!(query_refused(&doc(), b"(blank u r leaf e (who) (or (eq who x) (eq due 5)))", CLOCK), (27, 43, 3));
    assert_eq!(query_refused(&doc(), b"(count u r leaf r (eq due 5))", CLOCK), (27, 22, 3));
    // In one row of the column, wherever it stands, withheld or not: "(row r nomid Fay (6 7))" alone has one here.
    let one = doc().replace("(3 8)", "3").replace("(5 5)", "5").replace("(-3 -3)", "-3").replace("(-9223372036854775808 9223372036854775807)", "0");
    assert_eq!(query_refused(&one, b"(count u r leaf r (eq due 5))", CLOCK), (27, 22, 3));
    assert_eq!(answer_text(&one.replace("(6 7)", "6"), "(count u r leaf r (eq due 5))", CLOCK), "(end 2 1 3)\n");
    // Columns without ranges, and none named.
    assert_eq!(answer_text(&doc(), "(select u r leaf r (who) (eq who ida))", CLOCK), "(row Ida)\n(end 1 1 4)\n");
    assert_eq!(answer_text(&doc(), "(count u r leaf r)", CLOCK), "(end 5 1 0)\n");
    assert_eq!(answer_text(&doc(), "(select u r leaf p (due))", CLOCK), "(row 5)\n(end 1 0 0)\n");
    assert_eq!(query_refused(&doc(), b"(select u r leaf p (due LOT))", CLOCK), (27, 24, 3));
    // After 16: the type of the comparison first.
    assert_eq!(query_refused(&doc(), b"(select u r leaf r (due) (eq due x))", CLOCK), (16, 33, 1));
    assert_eq!(query_refused(&doc(), b"(count u r leaf r (and (eq due 1) (eq no 1)))", CLOCK), (15, 38, 2));
    // Before 17: a closed table, a closed column, an undeclared table.
    let closed = format!("{BASE}(table t table shut (a num))\n(row t (1 2))\n(table c column (a num nomid) (b num open))\n(row c (1 2) 3)\n(table n none (a num))\n(row n (1 2))\n");
    assert_eq!(query_refused(&closed, b"(count u r leaf t (eq a 1))", CLOCK), (27, 22, 1));
    assert_eq!(query_refused(&closed, b"(count u r leaf t)", CLOCK), (17, 16, 1));
    assert_eq!(query_refused(&closed, b"(select u r leaf c (b a))", CLOCK), (27, 22, 1));
    assert_eq!(query_refused(&closed, b"(sure u r leaf c (b a))", CLOCK), (17, 20, 1));
    assert_eq!(query_refused(&closed, b"(select u r leaf n (a))", CLOCK), (27, 20, 1));
    assert_eq!(query_refused(&closed, b"(possible u r leaf n (a))", CLOCK), (17, 19, 1));
    assert_eq!(query_refused(&closed, b"(possible u r side t (a))", CLOCK), (17, 19, 1));
    // A range of another table is none of this one's.
    assert_eq!(answer_text(&closed, "(select u r leaf c (b))", CLOCK), "(row 3)\n(end 1 0 0)\n");
}

#[test]
fn forms_of_queries() {
    for query in [
        "(sure u r leaf r)", "(possible u r leaf r ())", "(sure u r leaf r (who) (eq due (1 5)))", "(sure u r leaf r ((1 5)))",
        "(surely u r leaf r (who))", "(possible u r leaf r (who) (eq due 5) (eq due 5))", "(select u r leaf r (who) (eq due (1 5)))",
    ] {
        assert_eq!(query_refused(&doc(), query.as_bytes(), CLOCK), (11, 0, query.len()), "{query}");
    }
    assert_eq!(query_refused(&doc(), b"(sure x r leaf r (who))", CLOCK), (12, 6, 1));
    assert_eq!(query_refused(&doc(), b"(possible u r leaf r (whom))", CLOCK), (15, 22, 4));
    assert_eq!(query_refused(&doc(), b"(possible u r leaf r (who) (lt who x))", CLOCK), (16, 28, 2));
}

#[test]
fn forms_of_rows() {
    let none = "(table n none (a num) (b name))\n";
    assert_eq!(lines(&format!("{none}(row n (1 5) x)\n(row n (5 5) x)\n(row n (-9223372036854775808 9223372036854775807) x)\n(row n (-1 0) x)\n")), 5);
    // In each scheme.
    let all = format!("{BASE}(table t table open (a num))\n(row t (1 5))\n(table c column (a num open))\n(row c (1 5))\n(table r row (a num))\n(row r open (1 5))\n(table e cell (a num))\n(row e ((1 5) open))\n");
    assert_eq!(lines(&all), 19);
    // 2: no number, a number out of range, four of them (three are a date), a range in a range.
    for row in ["(row n (1 -0) x)", "(row n (1 9223372036854775808) x)", "(row n (1 2 3 4) x)", "(row n ((1 2) 3) x)", "(row n (x 1) x)", "(row n (1) x)", "(row n (1 2)x)"] {
        assert_eq!(refused(&format!("{none}{row}\n")), (2, none.len(), row.len()), "{row}");
    }
    // 7: bare in a cell table, with a label elsewhere, in place of a row's label, one too many. 5 comes first: a label unknown.
    let doc = format!("{BASE}(table e cell (a num) (b num))\n(table r row (a num))\n(table t table open (a num))\n");
    for row in ["(row e (1 5) (2 open))", "(row e (1 5) (2 6))", "(row e (2 open) (1 5))", "(row r (1 5))", "(row r (1 5) 3)", "(row r (1 5) (1 5))", "(row t ((1 5) open))", "(row r open ((1 5) open))", "(row t (1 5) (1 5))", "(row r open (1 5) (5 1))", "(row e (5 1) (2 open))"] {
        assert_eq!(refused(&format!("{doc}{row}\n")), (7, doc.len(), row.len()), "{row}");
    }
    assert_eq!(refused(&format!("{doc}(row e (1 5) (2 opem))\n")), (5, doc.len() + 16, 4));
    assert_eq!(refused(&format!("{doc}(row e ((1 5) opem) (2 open))\n")), (5, doc.len() + 14, 4));
}

#[test]
fn number_8_and_28() {
    // "(table n none (a num) (b name) (c num))\n" is 40 bytes, "(row n " 7.
    let none = "(table n none (a num) (b name) (c num))\n";
    let at = |row: &str| refused(&format!("{none}{row}\n"));
    assert_eq!(at("(row n 1 (2 3) 4)"), (8, 49, 5));
    assert_eq!(at("(row n 1 (3 2) 4)"), (8, 49, 5));
    assert_eq!(at("(row n x (2 3) 4)"), (8, 47, 1));
    assert_eq!(at("(row n (2 1) x 4)"), (28, 47, 5));
    assert_eq!(at("(row n 1 x (2 1))"), (28, 51, 5));
    assert_eq!(at("(row n (2 1) x (2 1))"), (28, 47, 5));
    assert_eq!(at("(row n (2 1) x y)"), (8, 55, 1));
    assert_eq!(at("(row n (1 1) x (0 -1))"), (28, 55, 6));
    assert_eq!(at("(row n (9223372036854775807 -9223372036854775808) x 1)"), (28, 47, 42));
    assert_eq!(lines(&format!("{none}(row n (1 1) x (-1 0))\n")), 2);
    // In a cell table at the range, not at the bracket around it; the first failing line counts.
    let cell = "(label l (allow) (deny))\n(table e cell (a num))\n";
    assert_eq!(refused(&format!("{cell}(row e ((2 1) l))\n(row e (x l))\n")), (28, 56, 5));
    assert_eq!(refused(&format!("{cell}(row e ((1 2) l))\n(row e (x l))\n")), (8, 74, 1));
}

#[test]
fn the_reserve_counts_a_range_as_written() {
    // "(row (1 5))" and a line feed are 12 bytes, the end line 12.
    let reserve = |doc: &str| reference::check(doc.as_bytes()).unwrap().reserve;
    assert_eq!(reserve("(table n none (a num))\n(row n (1 5))\n"), 24);
    assert_eq!(reserve("(table n none (a num) (b num))\n(row n (-10 -5) 7)\n"), 5 + 8 + 1 + 1 + 2 + 12);
    let all = answer_text(&doc(), "(sure u r side r (due who))", CLOCK);
    assert_eq!(reserve(&doc()), all.len());
}

/// "Each row passed by sure is passed for every choice of numbers, and each row that some choice passes is passed by possible."
#[test]
fn sure_and_possible_over_every_choice() {
    let columns = [(0, 2), (1, 1), (-1, 3)];
    let table = "(table s none (a num) (b num) (c num))\n(public s)\n";
    let of = |a: &str, b: &str, c: &str| format!("{BASE}{table}(row s {a} {b} {c})\n");
    let written: Vec<String> = columns.iter().map(|(low, high)| format!("({low} {high})")).collect();
    let ranged = of(&written[0], &written[1], &written[2]);
    let mut seen = [0; 3];
    for condition in [
        "(eq a 1)", "(ne b 1)", "(lt a 3)", "(ge c 0)", "(not (gt c 2))", "(and (le a 2) (ge c -1))", "(or (lt a 1) (gt c 3))", "(or (lt a 1) (ge a 1))",
        "(and (lt c 1) (ge c 1))", "(not (and (eq a 0) (not (eq b 1))))", "(or (not (or (eq a 0) (eq a 1))) (and (ne c 3) (lt b 2)))",
    ] {
        let given = |doc: &str, word: &str| answer_text(doc, &format!("({word} u r leaf s (a) {condition})"), CLOCK).starts_with("(row");
        let (mut all, mut some) = (true, false);
        for a in 0..=2 {
            for c in -1..=3 {
                let passes = given(&of(&a.to_string(), "1", &c.to_string()), "select");
                (all, some) = (all && passes, some || passes);
            }
        }
        let (sure, possible) = (given(&ranged, "sure"), given(&ranged, "possible"));
        assert!(!sure || all, "{condition}");
        assert!(possible || !some, "{condition}");
        seen[0] += usize::from(sure);
        seen[1] += usize::from(all && !sure);
        seen[2] += usize::from(possible && !some);
    }
    // Some are sure; and neither is the converse true.
    assert!(seen.iter().all(|&count| count > 0), "{seen:?}");
}
