//! A copy of the reference's `ask`, with blunders 2, 4, 5, 8, 9, 10, 16, 29, 33 to 36, 40, 44, 49 to 51, 55 to 57, 71 to 76, 98 and 99.

use crate::answer::{label_open, write, Answer, Request, Written};
use crate::check::read_document;
use crate::clock::Clock;
use crate::condition::{Certainty, Operator, Subject};
use crate::dates;
use crate::forms::{Type, Value, Word};
use crate::join;
use crate::nest::Sets;
use crate::on;
use crate::policy::{Grant, Labelling, Policy, Row, User};
use crate::query::{read_query, Asked, Rows, Verb};
use crate::refusal::{leftmost, of_query, Refusal};
use crate::text::{Name, Span};

/// 01, "Asking": "The earliest in this order whose condition holds is given, and there is no refusal when none holds."
pub fn ask(doc: &[u8], query: &[u8], clock: Clock, out: &mut [u8]) -> Result<Answer, Refusal> {
    let at_start = Span { start: 0, len: 0 };
    let whole_query = Span { start: 0, len: query.len() };

    // "1 to 9 as in checking".
    let (policy, _) = read_document(doc)?;

    // "10 clock out of range".
    if !clock.in_range() {
        return Err(of_query(10, at_start));
    }

    // "11 query not one form of the two shapes, or over a bound"; 02, Q-3: "in later query forms 11 admits the form".
    let Some(parsed) = read_query(query) else { return Err(of_query(11, whole_query)) };
    let known: [&[u8]; 6] = [b"(select ", b"(count ", b"(blank ", b"(sure ", b"(possible ", b"(join "];
    if on(33) && !known.iter().any(|word| query.starts_with(word)) {
        return Err(of_query(11, whole_query));
    }

    // "12 user, role or purpose unknown", the leftmost of them.
    if !policy.knows_user(parsed.user.text) {
        return Err(of_query(12, parsed.user.span));
    }
    let Some(role) = policy.role(parsed.role.text) else { return Err(of_query(12, parsed.role.span)) };
    let Some(purpose) = policy.purpose(parsed.purpose.text) else { return Err(of_query(12, parsed.purpose.span)) };

    if let (Asked::Rows(rows), true) = (&parsed.asked, on(16)) {
        if policy.table(rows.table.text).is_none() {
            return Err(of_query(15, rows.table.span));
        }
    }

    // "13 role not given to the user".
    let Some(user) = policy.user_in_role(parsed.user.text, role) else { return Err(of_query(13, parsed.role.span)) };

    // "14 purpose not authorised".
    let Some(grant) = first_grant(&policy, user, purpose, clock) else {
        return Err(of_query(14, parsed.purpose.span));
    };

    let written = match &parsed.asked {
        Asked::Rows(rows) => of_one_table(&policy, rows, purpose, out.len())?,
        Asked::Pairs(join) => join::answered(&policy, join, purpose)?,
    };

    // "18 answer longer than the lent buffer".
    let len = written.text.len();
    if on(9) && out.len() < len {
        let room = out.len();
        out.copy_from_slice(&written.text[..room]);
    }
    let Some(room) = out.get_mut(..len) else { return Err(of_query(18, at_start)) };

    // "An accepted answer fills the first bytes only".
    room.copy_from_slice(&written.text);
    Ok(Answer { len, grant, passed: written.passed, withheld: written.withheld, unmatched: written.unmatched })
}

/// 15 to 17 of a query of one table, then its answer; `room` is the buffer's length, for blunder 8.
fn of_one_table(policy: &Policy, parsed: &Rows, purpose: usize, room: usize) -> Result<Written, Refusal> {
    // "15 table or named column unknown".
    let Some(table) = policy.table(parsed.table.text) else { return Err(of_query(15, parsed.table.span)) };
    let undeclared = policy.tables[table].labelling == Labelling::None && !policy.tables[table].public;
    if on(40) && undeclared {
        return Err(of_query(17, parsed.table.span));
    }
    let named = parsed.named_columns();
    if let Some(part) = leftmost(&unknown_columns(policy, table, &named)) {
        return Err(of_query(15, part));
    }

    let no_date = parsed.condition.as_ref().and_then(|condition| leftmost(&dates::of_condition(condition)));
    if let (Some(part), true) = (no_date, on(71)) {
        return Err(of_query(31, part));
    }

    // "16 wrong type in the condition".
    if let Some(condition) = &parsed.condition {
        let kind_of = |subject: Subject| column_place(policy, table, subject.name.text).map(|place| policy.tables[table].columns[place].kind);
        let mut wrong = condition.wrong_types(&kind_of);
        if on(76) {
            let ordered = condition.comparisons().into_iter().filter(|comparison| !matches!(comparison.operator, Operator::Eq | Operator::Ne));
            wrong.extend(ordered.filter(|comparison| kind_of(comparison.subject) == Some(Type::Date)).map(|comparison| comparison.operator_span));
        }
        if let Some(part) = leftmost(&wrong) {
            return Err(of_query(16, part));
        }
    }

    // 02, Q-12: "27 a range in any row of a named column in a select, blank, count or join, after 16, at the column".
    let looked_at = if on(57) { parsed.columns.clone().unwrap_or_default() } else { named.clone() };
    let in_27 = |row: &Row| !on(55) || row.label.is_none_or(|label| label_open(policy, label, purpose));
    let ranged = if parsed.verb.takes_ranges() { None } else { leftmost(&ranged_columns(policy, table, &looked_at, &in_27)) };
    if let (Some(part), true) = (no_date, on(72)) {
        return Err(of_query(31, part));
    }
    if let (Some(part), false) = (ranged, on(56)) {
        return Err(of_query(27, part));
    }

    // 02, Q-14: "31 no such date .. after 27 in a query, at the date's own bracket".
    if let (Some(part), false) = (no_date, on(73) || on(74)) {
        return Err(of_query(31, part));
    }

    let blanks = parsed.verb == Verb::Blank;
    let selected = || parsed.columns.clone().unwrap_or_default();
    let withholding = match parsed.verb {
        Verb::Blank if on(2) => Vec::new(),
        _ if on(2) => selected(),
        Verb::Blank if on(44) => named.clone(),
        Verb::Blank if on(49) => selected(),
        Verb::Blank if on(50) => unselected(parsed),
        _ => parsed.withholding_columns(),
    };
    let named = if on(2) { selected() } else { named };
    let named = if on(51) && blanks { withholding.clone() } else { named };
    let by_bytes = |word: &Word| policy.tables[table].columns.iter().any(|column| column.name.written() == word.text.written());
    let [named, withholding] = [named, withholding].map(|words| if on(34) { words.into_iter().filter(by_bytes).collect() } else { words });

    // "17 table or column closed".
    if let Some(part) = leftmost(&closed_parts(policy, parsed, table, &named, purpose)) {
        return Err(of_query(17, part));
    }

    if let Some(part) = ranged {
        return Err(of_query(27, part));
    }
    if let (Some(part), true) = (no_date, on(73)) {
        return Err(of_query(31, part));
    }

    let places = |words: &[Word]| words.iter().filter_map(|word| column_place(policy, table, word.text)).collect();
    let request = Request {
        purpose,
        table,
        selected: parsed.columns.as_ref().map(|columns| places(columns)),
        withholding: places(&withholding),
        blanks,
        certainty: match parsed.verb {
            Verb::Sure => Some(Certainty::Sure),
            Verb::Possible => Some(Certainty::Possible),
            Verb::Select | Verb::Count | Verb::Blank => None,
        },
        sets: policy.labels.iter().map(|label| Sets::of_label(&policy.tree, label)).collect(),
        condition: parsed.condition.as_ref(),
    };
    let written = write(policy, &request);
    if on(8) && room < write(policy, &Request { condition: None, ..request }).text.len() {
        return Err(of_query(18, Span { start: 0, len: 0 }));
    }
    Ok(written)
}

/// 01: "the position, counted from 0, of the first grant that authorises it".
fn first_grant(policy: &Policy, user: &User, purpose: usize, clock: Clock) -> Option<usize> {
    let authorises = |grant: &Grant| {
        let matching = if on(4) { purpose == grant.purpose } else { policy.tree.descends(purpose, grant.purpose) };
        matching && belongs(policy, user, grant.cond_role, clock)
    };
    if on(10) {
        return policy.grants.iter().rposition(authorises);
    }
    policy.grants.iter().position(authorises)
}

/// 01: "when ROLE descends from R and the condition holds for the user's values in ROLE".
fn belongs(policy: &Policy, user: &User, cond_role: usize, clock: Clock) -> bool {
    let Some(cond_role) = policy.cond_roles.get(cond_role) else { return false };
    let matching = if on(5) { user.role == cond_role.role } else { policy.role_descends(user.role, cond_role.role) };
    matching
        && cond_role.condition.holds(&|subject| match clock.value(subject.name.text) {
            Some(value) => Some(value),
            None => user.values.iter().find(|(attribute, _)| *attribute == subject.name.text).map(|(_, value)| *value),
        })
}

/// Blunder 50: the condition's columns that aren't selected too.
fn unselected<'a>(query: &Rows<'a>) -> Vec<Word<'a>> {
    let selected = query.columns.clone().unwrap_or_default();
    let only = |word: &Word| !selected.iter().any(|column| column.text == word.text);
    query.withholding_columns().into_iter().filter(only).collect()
}

/// The place of a column of a table.
pub fn column_place(policy: &Policy, table: usize, name: Name) -> Option<usize> {
    let columns = &policy.tables[table].columns;
    if on(29) {
        return columns.iter().position(|column| column.name.written() == name.written());
    }
    columns.iter().position(|column| column.name == name)
}

/// 01: "A query's condition is over T's columns only, clock names not included."
fn unknown_columns(policy: &Policy, table: usize, named: &[Word]) -> Vec<Span> {
    named.iter().filter(|word| column_place(policy, table, word.text).is_none()).map(|word| word.span).collect()
}

/// 02, Q-12: the named columns in which some row of the table has a range; `counts` says which rows are looked at.
fn ranged_columns(policy: &Policy, table: usize, named: &[Word], counts: &dyn Fn(&Row) -> bool) -> Vec<Span> {
    let is_range = |value: Value| matches!(value, Value::Range(..)) || on(75) && matches!(value, Value::Date(_));
    let has_range = |place: usize| {
        policy.rows.iter().any(|row| row.table == table && counts(row) && is_range(row.cells[place].value))
    };
    named.iter().filter(|word| column_place(policy, table, word.text).is_some_and(has_range)).map(|word| word.span).collect()
}

/// 01: "table label closed, or a named column's label closed, refuses the query"; 02, Q-2: "`none` is closed to every purpose,
/// and its queries are refused with 17 at the table name", unless the table is public.
fn closed_parts(policy: &Policy, query: &Rows, table: usize, named: &[Word], purpose: usize) -> Vec<Span> {
    match policy.tables[table].labelling {
        _ if on(36) && policy.tables[table].public => Vec::new(),
        Labelling::None if !policy.tables[table].public && !on(35) => vec![query.table.span],
        Labelling::Nest if on(98) && policy.tables[table].weak.is_some_and(|label| !label_open(policy, label, purpose)) => vec![query.table.span],
        Labelling::Nest if on(99) && !policy.tables[table].public => vec![query.table.span],
        Labelling::Table(label) if !label_open(policy, label, purpose) => vec![query.table.span],
        Labelling::Column => named
            .iter()
            .filter(|word| {
                let column = column_place(policy, table, word.text);
                let label = column.and_then(|place| policy.tables[table].columns[place].label);
                label.is_some_and(|label| !label_open(policy, label, purpose))
            })
            .map(|word| word.span)
            .collect(),
        _ => Vec::new(),
    }
}
