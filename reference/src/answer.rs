//! 01, "Queries": the rows and the bytes of an answer.

use crate::condition::{Certainty, Condition};
use crate::date::Date;
use crate::forms::Value;
use crate::nest::{self, Sets};
use crate::policy::{Labelling, Policy, Row, Table};
use crate::purpose::open;
use crate::text::Name;

/// 01: an answer "carries their length, the grant and the three counts".
#[derive(Clone, Copy, Debug, PartialEq, Eq)]
pub struct Answer {
    pub len: usize,
    pub grant: usize,
    pub passed: usize,
    pub withheld: usize,
    pub unmatched: usize,
}

/// What becomes of a row.
enum Fate {
    Withheld,
    Passed,
    Unmatched,
}

/// A query whose names are all found: places in the policy.
pub struct Request<'q, 'p> {
    pub purpose: usize,
    pub table: usize,
    /// The selected columns; none for a count.
    pub selected: Option<Vec<usize>>,
    /// The columns whose closed cells withhold a row.
    pub withholding: Vec<usize>,
    /// 02, Q-10: whether a closed cell that is selected is written `-`.
    pub blanks: bool,
    /// 02, Q-12: whether rows pass where the condition is sure, or possible; none where it has to hold.
    pub certainty: Option<Certainty>,
    /// 02, Q-11: the sets of each label, by its place.
    pub sets: Vec<Sets>,
    pub condition: Option<&'q Condition<'p>>,
}

/// The text of an answer and its counts.
pub struct Written {
    pub text: Vec<u8>,
    pub passed: usize,
    pub withheld: usize,
    pub unmatched: usize,
}

/// Whether a label, by its place, is open to a purpose.
pub fn label_open(policy: &Policy, label: usize, purpose: usize) -> bool {
    match policy.labels.get(label) {
        Some(label) => open(&policy.tree, label, purpose),
        None => false,
    }
}

/// 01: "A row not withheld is passed if the condition holds or is absent, else unmatched."
fn fate<'p>(policy: &Policy<'p>, request: &Request<'_, 'p>, row: &Row<'p>) -> Fate {
    let table = &policy.tables[request.table];
    if withheld(policy, request, table, row) {
        return Fate::Withheld;
    }
    let holds = match (request.condition, request.certainty) {
        (None, _) => true,
        (Some(condition), None) => condition.holds(&|subject| value_in(table, row, subject.name.text)),
        (Some(condition), Some(certainty)) => condition.is(certainty, &|subject| value_in(table, row, subject.name.text)),
    };
    if holds {
        Fate::Passed
    } else {
        Fate::Unmatched
    }
}

/// 01: "Scheme row withholds a row whose label is closed ..  Scheme cell withholds a row with a closed named cell." 02, Q-11: a nest
/// table's "row is withheld only for a closed named cell (for blank, one in the condition)".
pub fn withheld(policy: &Policy, request: &Request, table: &Table, row: &Row) -> bool {
    match table.labelling {
        Labelling::None | Labelling::Table(_) | Labelling::Column => false,
        Labelling::Row => closed(policy, request, row.label),
        Labelling::Cell | Labelling::Nest => {
            request.withholding.iter().any(|&column| cell_closed(policy, request, table, row, column))
        }
    }
}

/// Whether a cell with a label of its own is closed: by that label alone, or in a nest table by all that come down to it (02, Q-11).
fn cell_closed(policy: &Policy, request: &Request, table: &Table, row: &Row, column: usize) -> bool {
    let own = row.cells[column].label;
    if table.labelling != Labelling::Nest {
        return closed(policy, request, own);
    }
    let absent = Sets::absent(&policy.tree);
    let sets = |label: Option<usize>| label.and_then(|label| request.sets.get(label)).unwrap_or(&absent);
    !nest::open(sets(table.strong), [sets(table.weak), sets(row.label), sets(own)], request.purpose)
}

/// Whether a row's or a cell's own label is closed to the request's purpose; where there is none it isn't.
fn closed(policy: &Policy, request: &Request, label: Option<usize>) -> bool {
    label.is_some_and(|label| !label_open(policy, label, request.purpose))
}

/// The value of a row in the column of a name.
fn value_in<'p>(table: &Table, row: &Row<'p>, name: Name) -> Option<Value<'p>> {
    let column = table.columns.iter().position(|column| column.name == name)?;
    Some(row.cells[column].value)
}

/// 01: "Select writes `(row v ..)` for each passed row in document order; both end with `(end PASSED WITHHELD UNMATCHED)`, each line with a line feed."
pub fn write<'p>(policy: &Policy<'p>, request: &Request<'_, 'p>) -> Written {
    let table = &policy.tables[request.table];
    let mut written = Written { text: Vec::new(), passed: 0, withheld: 0, unmatched: 0 };
    for row in policy.rows.iter().filter(|row| row.table == request.table) {
        match fate(policy, request, row) {
            Fate::Withheld => written.withheld += 1,
            Fate::Unmatched => written.unmatched += 1,
            Fate::Passed => {
                written.passed += 1;
                if let Some(selected) = &request.selected {
                    let blank = |column: usize| request.blanks && cell_closed(policy, request, table, row, column);
                    write_row(&mut written.text, row, selected, &blank);
                }
            }
        }
    }
    let Written { passed, withheld, unmatched, .. } = written;
    write_end(&mut written.text, passed, withheld, unmatched);
    written
}

/// 02, Q-9: "exactly the length of the longest answer among tables, taking each table with all its columns selected once and all
/// rows passed, end line included; 0 without tables."
pub fn reserve(policy: &Policy) -> usize {
    (0..policy.tables.len()).map(|table| whole(policy, table).len()).max().unwrap_or(0)
}

/// The answer that gives all rows of a table with all their columns.
fn whole(policy: &Policy, table: usize) -> Vec<u8> {
    let columns: Vec<usize> = (0..policy.tables[table].columns.len()).collect();
    let rows: Vec<&Row> = policy.rows.iter().filter(|row| row.table == table).collect();
    let mut text = Vec::new();
    for row in &rows {
        write_row(&mut text, row, &columns, &|_| false);
    }
    write_end(&mut text, rows.len(), 0, 0);
    text
}

/// `(end PASSED WITHHELD UNMATCHED)`, and a line feed.
pub fn write_end(text: &mut Vec<u8>, passed: usize, withheld: usize, unmatched: usize) {
    text.extend_from_slice(format!("(end {passed} {withheld} {unmatched})\n").as_bytes());
}

/// `(row v ..)` with the selected values, and a line feed. 02, Q-10: "A closed cell that is only selected is written `-`".
fn write_row(text: &mut Vec<u8>, row: &Row, selected: &[usize], blank: &dyn Fn(usize) -> bool) {
    text.extend_from_slice(b"(row");
    for &column in selected {
        text.push(b' ');
        if blank(column) {
            text.push(b'-');
            continue;
        }
        write_value(text, row.cells[column].value);
    }
    text.extend_from_slice(b")\n");
}

/// A value as its row line wrote it.
pub fn write_value(text: &mut Vec<u8>, value: Value) {
    match value {
        Value::Name(name) => text.extend_from_slice(name.written()),
        Value::Number(number) => text.extend_from_slice(number.to_string().as_bytes()),
        Value::Range(low, high) => text.extend_from_slice(format!("({low} {high})").as_bytes()),
        // 02, Q-14: "the answer prints the same form".
        Value::Date(Date { year, month, day }) => text.extend_from_slice(format!("({year} {month} {day})").as_bytes()),
    }
}
