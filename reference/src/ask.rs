//! 01, "Asking": the numbers 1 to 18 in their order, 25 of 02, Q-11, 27 of Q-12 and 31 of Q-14 among them, then the answer; from 15
//! on a join has its own.

use crate::answer::{label_open, write, Answer, Request, Written};
use crate::check::read_document;
use crate::clock::Clock;
use crate::condition::Certainty;
use crate::forms::{Value, Word};
use crate::nest::Sets;
use crate::join;
use crate::policy::{Labelling, Policy, User};
use crate::query::{read_query, Asked, Rows, Verb};
use crate::refusal::{leftmost, of_query, Refusal};
use crate::text::{Name, Span};

/// 01, "Asking": "The earliest in this order whose condition holds is given, and there is no refusal when none holds."
pub fn ask(doc: &[u8], query: &[u8], clock: Clock, out: &mut [u8]) -> Result<Answer, Refusal> {
    let (written, grant) = answered(doc, query, clock)?;

    // "18 answer longer than the lent buffer".
    let len = written.text.len();
    let Some(room) = out.get_mut(..len) else { return Err(of_query(18, Span { start: 0, len: 0 })) };

    // "An accepted answer fills the first bytes only".
    room.copy_from_slice(&written.text);
    Ok(Answer { len, grant, passed: written.passed, withheld: written.withheld, unmatched: written.unmatched })
}

/// 02, Q-4: "exactly the defined answer's length for every query that nothing but 18 could refuse".
pub fn measure(doc: &[u8], query: &[u8], clock: Clock) -> Result<usize, Refusal> {
    answered(doc, query, clock).map(|(written, _)| written.text.len())
}

/// The answer whatever the buffer, and the grant that authorises it.
fn answered(doc: &[u8], query: &[u8], clock: Clock) -> Result<(Written, usize), Refusal> {
    let at_start = Span { start: 0, len: 0 };
    let whole_query = Span { start: 0, len: query.len() };

    // "1 to 9 as in checking".
    let (policy, _) = read_document(doc)?;

    // "10 clock out of range".
    if !clock.in_range() {
        return Err(of_query(10, at_start));
    }

    // "11 query not one form of the two shapes, or over a bound"; 02, Q-3: "in later query forms 11 admits the form".
    let Some(parsed) = read_query(query) else { return Err(of_query(11, whole_query)) };

    // "12 user, role or purpose unknown", the leftmost of them.
    if !policy.knows_user(parsed.user.text) {
        return Err(of_query(12, parsed.user.span));
    }
    let Some(role) = policy.role(parsed.role.text) else { return Err(of_query(12, parsed.role.span)) };
    let Some(purpose) = policy.purpose(parsed.purpose.text) else { return Err(of_query(12, parsed.purpose.span)) };

    // "13 role not given to the user".
    let Some(user) = policy.user_in_role(parsed.user.text, role) else { return Err(of_query(13, parsed.role.span)) };

    // "14 purpose not authorised".
    let Some(grant) = first_grant(&policy, user, purpose, clock) else {
        return Err(of_query(14, parsed.purpose.span));
    };

    let written = match &parsed.asked {
        Asked::Rows(rows) => of_one_table(&policy, rows, purpose)?,
        Asked::Pairs(join) => join::answered(&policy, join, purpose)?,
    };
    Ok((written, grant))
}

/// 15 to 17 of a query of one table, then its answer.
fn of_one_table(policy: &Policy, parsed: &Rows, purpose: usize) -> Result<Written, Refusal> {
    // "15 table or named column unknown".
    let Some(table) = policy.table(parsed.table.text) else { return Err(of_query(15, parsed.table.span)) };
    let named = parsed.named_columns();
    if let Some(part) = leftmost(&unknown_columns(policy, table, &named)) {
        return Err(of_query(15, part));
    }

    // "16 wrong type in the condition".
    if let Some(condition) = &parsed.condition {
        let wrong = condition.wrong_types(&|subject| {
            column_place(policy, table, subject.name.text).map(|place| policy.tables[table].columns[place].kind)
        });
        if let Some(part) = leftmost(&wrong) {
            return Err(of_query(16, part));
        }
    }

    // 02, Q-12: "27 a range in any row of a named column in a select, blank, count or join, after 16, at the column".
    if !parsed.verb.takes_ranges() {
        if let Some(part) = leftmost(&ranged_columns(policy, table, &named)) {
            return Err(of_query(27, part));
        }
    }

    // 02, Q-14: "31 no such date .. after 27 in a query, at the date's own bracket".
    if let Some(part) = parsed.condition.as_ref().and_then(|condition| leftmost(&condition.no_such_dates())) {
        return Err(of_query(31, part));
    }

    // "17 table or column closed".
    if let Some(part) = leftmost(&closed_parts(policy, parsed, table, &named, purpose)) {
        return Err(of_query(17, part));
    }

    let places = |words: &[Word]| words.iter().filter_map(|word| column_place(policy, table, word.text)).collect();
    let request = Request {
        purpose,
        table,
        selected: parsed.columns.as_ref().map(|columns| places(columns)),
        withholding: places(&parsed.withholding_columns()),
        blanks: parsed.verb == Verb::Blank,
        certainty: match parsed.verb {
            Verb::Sure => Some(Certainty::Sure),
            Verb::Possible => Some(Certainty::Possible),
            Verb::Select | Verb::Count | Verb::Blank => None,
        },
        sets: policy.labels.iter().map(|label| Sets::of_label(&policy.tree, label)).collect(),
        condition: parsed.condition.as_ref(),
    };
    Ok(write(policy, &request))
}

/// 01: "the position, counted from 0, of the first grant that authorises it".
fn first_grant(policy: &Policy, user: &User, purpose: usize, clock: Clock) -> Option<usize> {
    policy.grants.iter().position(|grant| {
        policy.tree.descends(purpose, grant.purpose) && belongs(policy, user, grant.cond_role, clock)
    })
}

/// 01: "when ROLE descends from R and the condition holds for the user's values in ROLE".
fn belongs(policy: &Policy, user: &User, cond_role: usize, clock: Clock) -> bool {
    let Some(cond_role) = policy.cond_roles.get(cond_role) else { return false };
    policy.role_descends(user.role, cond_role.role)
        && cond_role.condition.holds(&|subject| match clock.value(subject.name.text) {
            Some(value) => Some(value),
            None => user.values.iter().find(|(attribute, _)| *attribute == subject.name.text).map(|(_, value)| *value),
        })
}

/// The place of a column of a table.
pub fn column_place(policy: &Policy, table: usize, name: Name) -> Option<usize> {
    policy.tables[table].columns.iter().position(|column| column.name == name)
}

/// 01: "A query's condition is over T's columns only, clock names not included."
fn unknown_columns(policy: &Policy, table: usize, named: &[Word]) -> Vec<Span> {
    named.iter().filter(|word| column_place(policy, table, word.text).is_none()).map(|word| word.span).collect()
}

/// 02, Q-12: the named columns in which some row of the table, withheld or not, has a range.
fn ranged_columns(policy: &Policy, table: usize, named: &[Word]) -> Vec<Span> {
    let has_range = |place: usize| {
        policy.rows.iter().any(|row| row.table == table && matches!(row.cells[place].value, Value::Range(..)))
    };
    named.iter().filter(|word| column_place(policy, table, word.text).is_some_and(has_range)).map(|word| word.span).collect()
}

/// 01: "table label closed, or a named column's label closed, refuses the query".
fn closed_parts(policy: &Policy, query: &Rows, table: usize, named: &[Word], purpose: usize) -> Vec<Span> {
    if table_closed(policy, table, purpose) {
        return vec![query.table.span];
    }
    let shut = |word: &&Word| column_place(policy, table, word.text).is_some_and(|place| closed_column(policy, table, place, purpose));
    named.iter().filter(shut).map(|word| word.span).collect()
}

/// Whether the table's label is closed; 02, Q-2: "`none` is closed to every purpose, and its queries are refused with 17 at the table
/// name", unless the table is public; Q-11: "A nest table gives no 17".
pub fn table_closed(policy: &Policy, table: usize, purpose: usize) -> bool {
    match policy.tables[table].labelling {
        Labelling::None => !policy.tables[table].public,
        Labelling::Table(label) => !label_open(policy, label, purpose),
        Labelling::Column | Labelling::Row | Labelling::Cell | Labelling::Nest => false,
    }
}

/// Whether a column has a label, under scheme column, that is closed.
pub fn closed_column(policy: &Policy, table: usize, place: usize, purpose: usize) -> bool {
    policy.tables[table].columns[place].label.is_some_and(|label| !label_open(policy, label, purpose))
}
