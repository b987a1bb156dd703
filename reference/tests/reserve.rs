//! 02, Q-9: "exactly the length of the longest answer among tables, taking each table with all its columns selected once and all
//! rows passed, end line included; 0 without tables".

mod common;
use common::*;

fn reserve(doc: &str) -> usize {
    reference::check(doc.as_bytes()).unwrap_or_else(|refusal| panic!("{refusal:?} in {doc}")).reserve
}

/// A table of one column with so many rows; `(row 7)` and a line feed are 8 bytes.
fn sevens(rows: usize) -> String {
    format!("(table t none (a num))\n{}", "(row t 7)\n".repeat(rows))
}

#[test]
fn no_table_and_no_row() {
    assert_eq!(reserve(""), 0);
    assert_eq!(reserve(BASE), 0);
    // "(end 0 0 0)" and a line feed.
    assert_eq!(reserve(&sevens(0)), 12);
}

#[test]
fn the_end_line_s_digits() {
    for (rows, end) in [(1, 12), (9, 12), (10, 13), (99, 13), (100, 14), (999, 14), (1000, 15)] {
        assert_eq!(reserve(&sevens(rows)), 8 * rows + end, "{rows} rows");
    }
}

#[test]
fn the_longest_answer_of_several_tables() {
    let long = "abcdefghijklmnopqrstuvwx";
    // "(row x)" with 24 bytes for x and a line feed are 31; two rows of 8 bytes are fewer.
    let rows = format!("(row u {long})\n(row t 7)\n(row t 7)\n");
    assert_eq!(reserve(&format!("(table t none (a num))\n(table u none (a name))\n{rows}")), 31 + 12);
    assert_eq!(reserve(&format!("(table u none (a name))\n(table t none (a num))\n{rows}")), 31 + 12);
    // Four are more.
    assert_eq!(reserve(&format!("(table u none (a name))\n(table t none (a num))\n{rows}(row t 7)\n(row t 7)\n")), 4 * 8 + 12);
}

#[test]
fn labels_do_not_count_and_closed_tables_do() {
    // "(row 7)" and "(row 7 x)", closed to every purpose.
    assert_eq!(reserve(&format!("{BASE}(table t row (a num))\n(row t shut 7)\n")), 8 + 12);
    assert_eq!(reserve(&format!("{BASE}(table t cell (a num) (b name))\n(row t (7 shut) (x shut))\n")), 10 + 12);
    assert_eq!(reserve(&format!("{BASE}(table t table shut (a num))\n(row t 7)\n")), 8 + 12);
    // Declared public or not (02, Q-2), and its name in whatever case (02, Q-8).
    assert_eq!(reserve(&format!("{}(public T)\n", sevens(3))), 3 * 8 + 12);
    assert_eq!(reserve(&format!("{}(ROW T -7)\n", sevens(3))), 3 * 8 + 9 + 12);
}

#[test]
fn it_is_reached_where_a_purpose_opens_the_table() {
    let doc = format!("{BASE}(table t row (a name) (b num))\n(row t open Ida 40)\n(row t open Bo 7)\n");
    let (text, _) = answer(&doc, "(select u r root t (b a))", CLOCK);
    assert_eq!(text, "(row 40 Ida)\n(row 7 Bo)\n(end 2 0 0)\n");
    assert_eq!(reserve(&doc), text.len());
}
