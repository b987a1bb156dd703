//! A copy of the reference's `answer`, with blunders 1, 3, 6, 7, 8, 30, 31, 36, 41 to 43, 45 to 48, 52 to 54, 59, 60, 66, 67, 77, 78, 97
//! and 100 to 102.

use std::cell::RefCell;

use crate::condition::{Certainty, Condition, Operator, Subject};
use crate::date::Date;
use crate::dates;
use crate::forms::Value;
use crate::nest::{self, Sets};
use crate::policy::{Labelling, Policy, Row, Table};
use crate::on;
use crate::purpose::{open, Label, Tree};
use crate::text::Name;

/// 01: an answer "carries their length, the grant and the three counts".
#[derive(Clone, Copy, Debug, PartialEq, Eq)]
pub struct Answer {
    pub len: usize,
    pub grant: usize,
    pub passed: usize,
    pub withheld: usize,
    pub unmatched: usize,
}

/// What becomes of a row.
enum Fate {
    Withheld,
    Passed,
    Unmatched,
}

/// A query whose names are all found: places in the policy.
pub struct Request<'q, 'p> {
    pub purpose: usize,
    pub table: usize,
    /// The selected columns; none for a count.
    pub selected: Option<Vec<usize>>,
    /// The columns whose closed cells withhold a row.
    pub withholding: Vec<usize>,
    /// 02, Q-10: whether a closed cell that is selected is written `-`.
    pub blanks: bool,
    /// 02, Q-12: whether rows pass where the condition is sure, or possible; none where it has to hold.
    pub certainty: Option<Certainty>,
    /// 02, Q-11: the sets of each label, by its place.
    pub sets: Vec<Sets>,
    pub condition: Option<&'q Condition<'p>>,
}

/// The text of an answer and its counts.
pub struct Written {
    pub text: Vec<u8>,
    pub passed: usize,
    pub withheld: usize,
    pub unmatched: usize,
}

/// Whether a label, by its place, is open to a purpose.
pub fn label_open(policy: &Policy, label: usize, purpose: usize) -> bool {
    match policy.labels.get(label) {
        Some(label) if on(1) => open_downwards(&policy.tree, label, purpose),
        Some(label) => open(&policy.tree, label, purpose),
        None => false,
    }
}

/// Blunder 1.
fn open_downwards(tree: &Tree, label: &Label, p: usize) -> bool {
    let allowed = label.allowed.iter().any(|&a| tree.descends(p, a));
    allowed && !label.denied.iter().any(|&d| tree.descends(p, d))
}

/// 01: "A row not withheld is passed if the condition holds or is absent, else unmatched."
fn fate<'p>(policy: &Policy<'p>, request: &Request<'_, 'p>, row: &Row<'p>) -> Fate {
    let table = &policy.tables[request.table];
    let mut closed = withheld(policy, request, table, row) && !(on(36) && table.public);
    if on(6) && table.labelling == Labelling::Cell {
        closed = reached_closed(policy, request, table, row);
    }
    if closed && !on(3) {
        return Fate::Withheld;
    }
    let holds = match (request.condition, request.certainty) {
        (None, _) => true,
        (Some(condition), None) if on(31) => holds_by_bytes(condition, &|subject| value_in(table, row, subject.name.text)),
        (Some(condition), None) if on(66) || on(67) => holds_out_of_order(condition, &|subject| value_in(table, row, subject.name.text)),
        (Some(condition), None) => condition.holds(&|subject| value_in(table, row, subject.name.text)),
        (Some(condition), Some(certainty)) => certain(condition, certainty, &|subject| value_in(table, row, subject.name.text)),
    };
    if closed && holds {
        return Fate::Withheld;
    }
    if holds {
        Fate::Passed
    } else {
        Fate::Unmatched
    }
}

/// 01: "Scheme row withholds a row whose label is closed ..  Scheme cell withholds a row with a closed named cell." 02, Q-11: a nest
/// table's "row is withheld only for a closed named cell (for blank, one in the condition)".
pub fn withheld(policy: &Policy, request: &Request, table: &Table, row: &Row) -> bool {
    let unnamed = request.selected.is_none() && request.condition.is_none();
    match table.labelling {
        Labelling::None | Labelling::Table(_) | Labelling::Column => false,
        Labelling::Row if on(7) => !unnamed && closed(policy, request, row.label),
        Labelling::Row if on(47) && request.blanks => false,
        Labelling::Row => closed(policy, request, row.label),
        Labelling::Nest if on(97) && closed(policy, request, row.label) => true,
        Labelling::Nest if on(102) && request.blanks => {
            let selected = request.selected.iter().flatten();
            selected.chain(&request.withholding).any(|&column| cell_closed(policy, request, table, row, column))
        }
        Labelling::Cell | Labelling::Nest => {
            request.withholding.iter().any(|&column| cell_closed(policy, request, table, row, column))
        }
    }
}

/// Whether a cell with a label of its own is closed: by that label alone, or in a nest table by all that come down to it (02, Q-11).
fn cell_closed(policy: &Policy, request: &Request, table: &Table, row: &Row, column: usize) -> bool {
    let own = row.cells[column].label;
    if table.labelling != Labelling::Nest {
        return closed(policy, request, own);
    }
    if on(100) && table.public {
        return false;
    }
    let absent = Sets::absent(&policy.tree);
    let sets = |label: Option<usize>| label.and_then(|label| request.sets.get(label)).unwrap_or(&absent);
    !nest::open(&policy.tree, sets(table.strong), [sets(table.weak), sets(row.label), sets(own)], request.purpose)
}

/// Whether a row's or a cell's own label is closed to the request's purpose; where there is none it isn't.
fn closed(policy: &Policy, request: &Request, label: Option<usize>) -> bool {
    label.is_some_and(|label| !label_open(policy, label, request.purpose))
}

/// Blunders 52 to 54, of conditions over ranges.
fn certain<'p>(condition: &Condition<'p>, certainty: Certainty, value_of: &dyn Fn(Subject) -> Option<Value<'p>>) -> bool {
    let lower = |subject: Subject| match value_of(subject) {
        Some(Value::Range(low, _)) => Some(Value::Number(low)),
        other => other,
    };
    match condition {
        _ if on(52) => condition.is(certainty, &lower),
        _ if on(54) => condition.is(Certainty::Possible, value_of),
        Condition::Not(inner) if on(53) => !certain(inner, certainty, value_of),
        Condition::And(list) if on(53) => list.iter().all(|inner| certain(inner, certainty, value_of)),
        Condition::Or(list) if on(53) => list.iter().any(|inner| certain(inner, certainty, value_of)),
        _ => condition.is(certainty, value_of),
    }
}

/// Blunder 31: `eq` and `ne` tell cases apart.
fn holds_by_bytes<'p>(condition: &Condition<'p>, value_of: &dyn Fn(Subject) -> Option<Value<'p>>) -> bool {
    match condition {
        Condition::Compare(comparison) => match (value_of(comparison.subject), comparison.value.value) {
            (Some(Value::Name(left)), Value::Name(right)) => (left.written() == right.written()) == (comparison.operator == Operator::Eq),
            _ => condition.holds(value_of),
        },
        Condition::Not(inner) => !holds_by_bytes(inner, value_of),
        Condition::And(list) => list.iter().all(|inner| holds_by_bytes(inner, value_of)),
        Condition::Or(list) => list.iter().any(|inner| holds_by_bytes(inner, value_of)),
    }
}

/// Blunders 66 and 67: dates in another order.
fn holds_out_of_order<'p>(condition: &Condition<'p>, value_of: &dyn Fn(Subject) -> Option<Value<'p>>) -> bool {
    match condition {
        Condition::Compare(comparison) => match (value_of(comparison.subject), comparison.value.value) {
            (Some(Value::Date(left)), Value::Date(right)) => {
                let order = dates::key(left).cmp(&dates::key(right));
                match comparison.operator {
                    Operator::Eq => order.is_eq(),
                    Operator::Ne => order.is_ne(),
                    Operator::Lt => order.is_lt(),
                    Operator::Le => order.is_le(),
                    Operator::Gt => order.is_gt(),
                    Operator::Ge => order.is_ge(),
                }
            }
            _ => condition.holds(value_of),
        },
        Condition::Not(inner) => !holds_out_of_order(inner, value_of),
        Condition::And(list) => list.iter().all(|inner| holds_out_of_order(inner, value_of)),
        Condition::Or(list) => list.iter().any(|inner| holds_out_of_order(inner, value_of)),
    }
}

/// Blunder 6: only the selected cells and those that the condition reads.
fn reached_closed<'p>(policy: &Policy<'p>, request: &Request<'_, 'p>, table: &Table, row: &Row<'p>) -> bool {
    let selected = if request.blanks { Vec::new() } else { request.selected.clone().unwrap_or_default() };
    let reached = RefCell::new(selected);
    if let Some(condition) = request.condition {
        condition.holds(&|subject| {
            let name = subject.name.text;
            reached.borrow_mut().extend(table.columns.iter().position(|column| column.name == name));
            value_in(table, row, name)
        });
    }
    let reached = reached.into_inner();
    reached.iter().any(|&column| row.cells[column].label.is_some_and(|label| !label_open(policy, label, request.purpose)))
}

/// The value of a row in the column of a name.
fn value_in<'p>(table: &Table, row: &Row<'p>, name: Name) -> Option<Value<'p>> {
    let column = table.columns.iter().position(|column| column.name == name)?;
    Some(row.cells[column].value)
}

/// 01: "Select writes `(row v ..)` for each passed row in document order; both end with `(end PASSED WITHHELD UNMATCHED)`, each line with a line feed."
pub fn write<'p>(policy: &Policy<'p>, request: &Request<'_, 'p>) -> Written {
    let table = &policy.tables[request.table];
    let printed = on(101) && table.labelling == Labelling::Nest;
    let mut written = Written { text: Vec::new(), passed: 0, withheld: 0, unmatched: 0 };
    for row in policy.rows.iter().filter(|row| row.table == request.table) {
        match fate(policy, request, row) {
            Fate::Withheld => written.withheld += 1,
            Fate::Unmatched => written.unmatched += 1,
            Fate::Passed => {
                written.passed += 1;
                if let Some(selected) = &request.selected {
                    let blank = |column: usize| request.blanks && !printed && cell_closed(policy, request, table, row, column);
                    write_row(&mut written.text, row, selected, &blank);
                }
            }
        }
    }
    let Written { passed, withheld, unmatched, .. } = written;
    write_end(&mut written.text, passed, withheld, unmatched);
    written
}

/// 02, Q-9: "exactly the length of the longest answer among tables, taking each table with all its columns selected once and all
/// rows passed, end line included; 0 without tables."
pub fn reserve(policy: &Policy) -> usize {
    let lengths = (0..policy.tables.len()).map(|table| whole(policy, table).len());
    let found = if on(42) { lengths.last() } else { lengths.max() };
    found.unwrap_or(0)
}

/// The answer that gives all rows of a table with all their columns.
fn whole(policy: &Policy, table: usize) -> Vec<u8> {
    let columns: Vec<usize> = (0..policy.tables[table].columns.len()).collect();
    let rows: Vec<&Row> = policy.rows.iter().filter(|row| row.table == table).collect();
    let mut text = Vec::new();
    for row in &rows {
        write_row(&mut text, row, &columns, &|_| false);
        if on(60) {
            let ranges = row.cells.iter().filter(|cell| matches!(cell.value, Value::Range(..))).count();
            text.truncate(text.len() - 3 * ranges);
        }
        if on(78) {
            let dates = row.cells.iter().filter(|cell| matches!(cell.value, Value::Date(_))).count();
            text.truncate(text.len() - 4 * dates);
        }
        if let (true, Some(label)) = (on(43), row.label) {
            text.push(b' ');
            text.extend_from_slice(policy.label_names[label].written());
        }
    }
    if !on(41) {
        write_end(&mut text, rows.len(), 0, 0);
    }
    text
}

/// `(end PASSED WITHHELD UNMATCHED)`, and a line feed.
pub fn write_end(text: &mut Vec<u8>, passed: usize, withheld: usize, unmatched: usize) {
    text.extend_from_slice(format!("(end {passed} {withheld} {unmatched})\n").as_bytes());
}

/// `(row v ..)` with the selected values, and a line feed. 02, Q-10: "A closed cell that is only selected is written `-`".
fn write_row(text: &mut Vec<u8>, row: &Row, selected: &[usize], blank: &dyn Fn(usize) -> bool) {
    text.extend_from_slice(b"(row");
    for (place, &column) in selected.iter().enumerate() {
        text.push(b' ');
        let again = on(48) && selected[..place].contains(&column);
        if blank(column) && !on(45) && !again {
            let length = if on(46) { written_length(row, column) } else { 1 };
            text.extend(std::iter::repeat_n(b'-', length));
            continue;
        }
        write_value(text, row.cells[column].value);
    }
    text.extend_from_slice(b")\n");
}

/// A value as its row line wrote it.
pub fn write_value(text: &mut Vec<u8>, value: Value) {
    match value {
        Value::Name(name) if on(30) => text.extend_from_slice(&name.small()),
        Value::Name(name) => text.extend_from_slice(name.written()),
        Value::Number(number) => text.extend_from_slice(number.to_string().as_bytes()),
        Value::Range(low, high) if on(59) && low == high => text.extend_from_slice(low.to_string().as_bytes()),
        Value::Range(low, high) => text.extend_from_slice(format!("({low} {high})").as_bytes()),
        Value::Date(Date { year, month, day }) if on(77) => text.extend_from_slice(format!("({year} {month:02} {day:02})").as_bytes()),
        // 02, Q-14: "the answer prints the same form".
        Value::Date(Date { year, month, day }) => text.extend_from_slice(format!("({year} {month} {day})").as_bytes()),
    }
}

/// Blunder 46: as many `-` as the value has bytes.
fn written_length(row: &Row, column: usize) -> usize {
    match row.cells[column].value {
        Value::Name(name) => name.written().len(),
        Value::Number(number) => number.to_string().len(),
        Value::Range(low, high) => format!("({low} {high})").len(),
        Value::Date(Date { year, month, day }) => format!("({year} {month} {day})").len(),
    }
}
