//! 01, "Queries": a query text as one of the two shapes, or as a later one of 02: a join, a blank, sure or possible.

use crate::condition::{read_condition, Condition, ReadSubject, Subject};
use crate::forms::{bracket, is_keyword, word, Word};
use crate::join::{read_join, Join};
use crate::rules::MOST_COLUMNS;
use crate::text::{read_form, Item, Kind};

/// Whether joins (02, Q-3) are queries: the feature `join` is on once the gate takes them.
const JOINS: bool = cfg!(feature = "join");

/// 01: "query 4,096" bytes.
pub const LONGEST_QUERY: usize = 4_096;

/// What a query of one table asks for: its first word.
#[derive(Clone, Copy, Debug, PartialEq, Eq)]
pub enum Verb {
    Select,
    Count,
    /// 02, Q-10.
    Blank,
    /// 02, Q-12: "`(sure ..)` and `(possible ..)`, shaped like select".
    Sure,
    Possible,
}

impl Verb {
    /// 02, Q-12, 27: "a range in any row of a named column in a select, blank, count or join".
    pub fn takes_ranges(self) -> bool {
        match self {
            Verb::Sure | Verb::Possible => true,
            Verb::Select | Verb::Count | Verb::Blank => false,
        }
    }
}

/// A query: who asks for which purpose, and what.
#[derive(Debug)]
pub struct Query<'a> {
    pub user: Word<'a>,
    pub role: Word<'a>,
    pub purpose: Word<'a>,
    pub asked: Asked<'a>,
}

/// Rows of one table, or pairs of rows of two.
#[derive(Debug)]
pub enum Asked<'a> {
    Rows(Rows<'a>),
    Pairs(Join<'a>),
}

/// A query of one table; `columns` is there unless it is a count.
#[derive(Debug)]
pub struct Rows<'a> {
    pub verb: Verb,
    pub table: Word<'a>,
    pub columns: Option<Vec<Word<'a>>>,
    pub condition: Option<Condition<'a>>,
}

/// 01, 11: "query not one form of the two shapes, or over a bound" gives none; the shapes of 02, Q-3, Q-10 and Q-12 are four more.
pub fn read_query(text: &[u8]) -> Option<Query<'_>> {
    if text.len() > LONGEST_QUERY {
        return None;
    }
    let items = read_form(text, 0)?;
    let [head, user, role, purpose, rest @ ..] = &items[..] else { return None };
    let asked = if JOINS && is_keyword(head, "join") { Asked::Pairs(read_join(rest)?) } else { Asked::Rows(read_rows(head, rest)?) };
    Some(Query { user: word(user)?, role: word(role)?, purpose: word(purpose)?, asked })
}

/// The rest of a query of one table, by its first word.
fn read_rows<'a>(head: &Item<'a>, rest: &[Item<'a>]) -> Option<Rows<'a>> {
    let (table, rest) = rest.split_first()?;
    let Kind::Name(keyword) = head.kind else { return None };
    let verb = match &keyword.small()[..] {
        b"select" => Verb::Select,
        b"count" => Verb::Count,
        b"blank" => Verb::Blank,
        b"sure" => Verb::Sure,
        b"possible" => Verb::Possible,
        _ => return None,
    };
    let (columns, rest) = match verb {
        Verb::Select | Verb::Blank | Verb::Sure | Verb::Possible => {
            let (columns, rest) = rest.split_first()?;
            (Some(selected(columns, word)?), rest)
        }
        Verb::Count => (None, rest),
    };
    Some(Rows { verb, table: word(table)?, columns, condition: last_condition(rest, Subject::plain)? })
}

/// 01: "then optionally a condition before the last bracket", within its bound; none where the items are something else.
pub fn last_condition<'a>(rest: &[Item<'a>], subject_of: ReadSubject<'a>) -> Option<Option<Condition<'a>>> {
    let condition = match rest {
        [] => None,
        [condition] => Some(read_condition(condition, subject_of)?),
        _ => return None,
    };
    if condition.as_ref().is_some_and(|c| c.over_bound()) {
        return None;
    }
    Some(condition)
}

/// 01: "1 to 16 columns, repeats allowed", each read by `column`.
pub fn selected<'a, T>(item: &Item<'a>, column: fn(&Item<'a>) -> Option<T>) -> Option<Vec<T>> {
    let columns = bracket(item)?;
    if columns.is_empty() || columns.len() > MOST_COLUMNS {
        return None;
    }
    columns.iter().map(column).collect()
}

impl<'a> Rows<'a> {
    /// 01: "Named columns are those selected and every one in the condition, evaluated or not."
    pub fn named_columns(&self) -> Vec<Word<'a>> {
        let mut named = self.columns.clone().unwrap_or_default();
        named.extend(self.condition_columns());
        named
    }

    /// The columns in the condition, evaluated or not.
    fn condition_columns(&self) -> Vec<Word<'a>> {
        match &self.condition {
            Some(condition) => condition.comparisons().iter().map(|comparison| comparison.subject.name).collect(),
            None => Vec::new(),
        }
    }

    /// The columns whose closed cells withhold a row: 01, "a closed named cell"; 02, Q-10, "a closed cell named in the condition".
    pub fn withholding_columns(&self) -> Vec<Word<'a>> {
        match self.verb {
            Verb::Select | Verb::Count | Verb::Sure | Verb::Possible => self.named_columns(),
            Verb::Blank => self.condition_columns(),
        }
    }
}
