//! Every case named in 01, "Sample session", starred or not.

mod common;
use common::*;
use reference::purpose::{open, Label, Tree};
use reference::{ask, Answer, Clock, Refusal, Source};

/// 01's tree: all = 0, bill = 1, ads = 2, post = 3.
fn tree() -> Tree {
    let mut tree = Tree::new();
    assert_eq!(tree.add(None), Ok(0));
    assert_eq!(tree.add(Some(0)), Ok(1));
    assert_eq!(tree.add(Some(0)), Ok(2));
    assert_eq!(tree.add(Some(2)), Ok(3));
    tree
}

#[test]
fn the_document_is_accepted_with_15_lines() {
    assert_eq!(lines(SAMPLE), 15);
}

#[test]
fn star_output_whole() {
    // Ida's 40 is not over 50: unmatched. Bo's due is noads, closed to post: withheld. Cy passes.
    // "(row Cy)\n" is 9 bytes, "(end 1 1 1)\n" 12; the only grant is the one at 0.
    let (text, counts) = answer(SAMPLE, QUERY, CLOCK);
    assert_eq!(text, "(row Cy)\n(end 1 1 1)\n");
    assert_eq!(counts, Answer { len: 21, grant: 0, passed: 1, withheld: 1, unmatched: 1 });
}

#[test]
fn star_bo_75_made_10_is_the_same() {
    let other = SAMPLE.replace("(75 noads)", "(10 noads)");
    assert_eq!(answer(&other, QUERY, CLOCK), answer(SAMPLE, QUERY, CLOCK));
}

#[test]
fn star_without_the_condition() {
    // 10 + 9 + 9 bytes of rows and 12 of the end line.
    let (text, counts) = answer(SAMPLE, "(select ana desk post sub (who))", CLOCK);
    assert_eq!(text, "(row Ida)\n(row Bo)\n(row Cy)\n(end 3 0 0)\n");
    assert_eq!(counts, Answer { len: 40, grant: 0, passed: 3, withheld: 0, unmatched: 0 });
}

#[test]
fn star_for_bill() {
    assert_eq!(query_refused(SAMPLE, QUERY.replace("post", "bill").as_bytes(), CLOCK), (14, 17, 4));
}

#[test]
fn star_hour_17_and_hour_16() {
    assert_eq!(query_refused(SAMPLE, QUERY.as_bytes(), Clock { hour: 17, ..CLOCK }), (14, 17, 4));
    assert_eq!(answer_text(SAMPLE, QUERY, Clock { hour: 16, ..CLOCK }), "(row Cy)\n(end 1 1 1)\n");
}

#[test]
fn star_clock_2027_366_10() {
    assert_eq!(query_refused(SAMPLE, QUERY.as_bytes(), Clock { year: 2027, ..CLOCK }), (10, 0, 0));
}

#[test]
fn star_noads_under_bill_and_all() {
    let noads = Label { allowed: vec![0], denied: vec![2] };
    assert!(open(&tree(), &noads, 1));
    assert!(!open(&tree(), &noads, 0));
    // The denied purpose and its descendant are closed as well.
    assert!(!open(&tree(), &noads, 2));
    assert!(!open(&tree(), &noads, 3));
}

#[test]
fn star_empty_allowed_set() {
    let label = Label { allowed: vec![], denied: vec![] };
    for p in 0..5 {
        assert!(!open(&tree(), &label, p));
    }
}

#[test]
fn star_denied_root() {
    let label = Label { allowed: vec![0, 1, 2, 3], denied: vec![0] };
    for p in 0..5 {
        assert!(!open(&tree(), &label, p));
    }
}

#[test]
fn buffer_of_21_and_20_bytes() {
    let mut enough = [b'#'; 21];
    assert_eq!(ask(SAMPLE.as_bytes(), QUERY.as_bytes(), CLOCK, &mut enough).map(|a| a.len), Ok(21));
    assert_eq!(&enough, b"(row Cy)\n(end 1 1 1)\n");
    let mut short = [b'#'; 20];
    let refusal = Refusal { number: 18, source: Source::Query, start: 0, len: 0 };
    assert_eq!(ask(SAMPLE.as_bytes(), QUERY.as_bytes(), CLOCK, &mut short), Err(refusal));
    assert_eq!(short, [b'#'; 20]);
}

#[test]
fn name_of_24_and_25_bytes() {
    // "(purpose " is 9 bytes, ")" one: 34 and 35 with the names.
    assert_eq!(lines(&format!("(purpose {})\n", "n".repeat(24))), 1);
    assert_eq!(refused(&format!("(purpose {})\n", "n".repeat(25))), (2, 0, 35));
}

#[test]
fn greatest_number_and_one_more() {
    // "(row t " is 7 bytes, the number 19, ")" one; the table line with its line feed is 23.
    let table = "(table t none (k num))\n";
    assert_eq!(table.len(), 23);
    assert_eq!(lines(&format!("{table}(row t 9223372036854775807)\n")), 2);
    assert_eq!(refused(&format!("{table}(row t 9223372036854775808)\n")), (2, 23, 27));
    assert_eq!(lines(&format!("{table}(row t -9223372036854775808)\n")), 2);
    assert_eq!(refused(&format!("{table}(row t -9223372036854775809)\n")), (2, 23, 28));
}

/// A condition `(eq NAME 1)` under so many `not`.
fn nots(count: usize, name: &str) -> String {
    format!("{}(eq {} 1){}", "(not ".repeat(count), name, ")".repeat(count))
}

#[test]
fn nesting_of_16_and_17_in_a_document() {
    // The form is 1, fourteen nots 2 to 15, the comparison 16.
    assert_eq!(lines(&format!("(role r)\n(cond-role c r {})\n", nots(14, "year"))), 2);
    // "(role r)\n" is 9; "(cond-role c r " 15, fifteen "(not " 75, "(eq year 1)" 11, fifteen ")" and one: 117.
    assert_eq!(refused(&format!("(role r)\n(cond-role c r {})\n", nots(15, "year"))), (2, 9, 117));
}

#[test]
fn nesting_of_16_and_17_in_a_query() {
    // Fourteen nots, an even number, over (eq due 1): Ida, Bo and Cy have none of it, Bo being withheld.
    let deep = |count| format!("(count ana desk post sub {})", nots(count, "due"));
    assert_eq!(answer_text(SAMPLE, &deep(14), CLOCK), "(end 0 1 2)\n");
    // "(count ana desk post sub " is 25, fifteen "(not " 75, "(eq due 1)" 10, sixteen ")": 126.
    assert_eq!(query_refused(SAMPLE, deep(15).as_bytes(), CLOCK), (11, 0, 126));
}

#[test]
fn label_64_and_65() {
    let labels = |count: usize| (0..count).map(|n| format!("(label l{n:02} (allow) (deny))\n")).collect::<String>();
    assert_eq!(lines(&labels(64)), 64);
    // Every line, as "(label l00 (allow) (deny))", is 26 bytes and 27 with its line feed: 64 of them are 1728.
    assert_eq!(refused(&labels(65)), (3, 1728, 26));
}
