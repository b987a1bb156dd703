//! 01: "A condition is a comparison, `(not c)`, or `and` or `or` over one or more conditions."

use crate::forms::{constant, word, Given, Type, Value, Word};
use crate::text::{Item, Kind, Span};

/// 01: "64 comparisons a condition".
pub const MOST_COMPARISONS: usize = 64;

/// 01: "Comparisons are `(eq A v)`, `ne`, `lt`, `le`, `gt`, `ge`".
#[derive(Clone, Copy, Debug, PartialEq, Eq)]
pub enum Operator {
    Eq,
    Ne,
    Lt,
    Le,
    Gt,
    Ge,
}

/// What a comparison is over: an attribute or a column, in a join with its table (02, Q-3).
#[derive(Clone, Copy, Debug)]
pub struct Subject<'a> {
    pub table: Option<Word<'a>>,
    pub name: Word<'a>,
}

impl<'a> Subject<'a> {
    /// The name alone, as attributes and the columns of one table are written.
    pub fn plain(item: &Item<'a>) -> Option<Subject<'a>> {
        Some(Subject { table: None, name: word(item)? })
    }
}

/// One comparison, with the places of its operator and value.
#[derive(Clone, Debug)]
pub struct Comparison<'a> {
    pub operator: Operator,
    pub operator_span: Span,
    pub subject: Subject<'a>,
    pub value: Given<'a>,
}

/// A condition as it stands in a text.
#[derive(Clone, Debug)]
pub enum Condition<'a> {
    Compare(Comparison<'a>),
    Not(Box<Condition<'a>>),
    And(Vec<Condition<'a>>),
    Or(Vec<Condition<'a>>),
}

/// The operator that a keyword in small letters stands for.
fn operator(keyword: &[u8]) -> Option<Operator> {
    match keyword {
        b"eq" => Some(Operator::Eq),
        b"ne" => Some(Operator::Ne),
        b"lt" => Some(Operator::Lt),
        b"le" => Some(Operator::Le),
        b"gt" => Some(Operator::Gt),
        b"ge" => Some(Operator::Ge),
        _ => None,
    }
}

/// How the subject of a comparison is read.
pub type ReadSubject<'a> = fn(&Item<'a>) -> Option<Subject<'a>>;

/// Reads one condition; the items nest at most 16 deep, so does this.
pub fn read_condition<'a>(item: &Item<'a>, subject_of: ReadSubject<'a>) -> Option<Condition<'a>> {
    let Kind::Bracket(items) = &item.kind else { return None };
    let (head, rest) = items.split_first()?;
    let Kind::Name(keyword) = head.kind else { return None };
    let keyword = keyword.small();
    match (&keyword[..], rest) {
        (b"not", [inner]) => Some(Condition::Not(Box::new(read_condition(inner, subject_of)?))),
        (b"and", list) => Some(Condition::And(read_conditions(list, subject_of)?)),
        (b"or", list) => Some(Condition::Or(read_conditions(list, subject_of)?)),
        (_, [subject, value]) => Some(Condition::Compare(Comparison {
            operator: operator(&keyword)?,
            operator_span: head.span,
            subject: subject_of(subject)?,
            value: constant(value)?,
        })),
        _ => None,
    }
}

/// 01: "over one or more conditions".
fn read_conditions<'a>(items: &[Item<'a>], subject_of: ReadSubject<'a>) -> Option<Vec<Condition<'a>>> {
    if items.is_empty() {
        return None;
    }
    items.iter().map(|item| read_condition(item, subject_of)).collect()
}

impl<'a> Condition<'a> {
    /// Every comparison, in the order of the text, evaluated or not.
    pub fn comparisons(&self) -> Vec<&Comparison<'a>> {
        match self {
            Condition::Compare(comparison) => vec![comparison],
            Condition::Not(inner) => inner.comparisons(),
            Condition::And(list) | Condition::Or(list) => list.iter().flat_map(|c| c.comparisons()).collect(),
        }
    }

    /// 01: "64 comparisons a condition".
    pub fn over_bound(&self) -> bool {
        self.comparisons().len() > MOST_COMPARISONS
    }

    /// 01, 8 and 16: "names take only `eq` and `ne`"; "for 8 the operator or the value".
    pub fn wrong_types(&self, type_of: &dyn Fn(Subject) -> Option<Type>) -> Vec<Span> {
        let mut wrong = Vec::new();
        for comparison in self.comparisons() {
            let Some(kind) = type_of(comparison.subject) else { continue };
            let equality = matches!(comparison.operator, Operator::Eq | Operator::Ne);
            if kind == Type::Name && !equality {
                wrong.push(comparison.operator_span);
            }
            if comparison.value.value.kind() != kind {
                wrong.push(comparison.value.span);
            }
        }
        wrong
    }

    /// 02, Q-14, 31: the constants that are no such date, "at the date's own bracket".
    pub fn no_such_dates(&self) -> Vec<Span> {
        let wrong = |comparison: &&Comparison| matches!(comparison.value.value, Value::Date(date) if !date.exists());
        self.comparisons().into_iter().filter(wrong).map(|comparison| comparison.value.span).collect()
    }

    /// Whether the condition holds for the values that `value_of` gives to its names.
    pub fn holds(&self, value_of: &dyn Fn(Subject) -> Option<Value<'a>>) -> bool {
        match self {
            Condition::Compare(comparison) => match value_of(comparison.subject) {
                Some(left) => compare(comparison.operator, left, comparison.value.value),
                None => false,
            },
            Condition::Not(inner) => !inner.holds(value_of),
            Condition::And(list) => list.iter().all(|c| c.holds(value_of)),
            Condition::Or(list) => list.iter().any(|c| c.holds(value_of)),
        }
    }
}

/// How a condition is asked of values that may be ranges (02, Q-12).
#[derive(Clone, Copy, Debug, PartialEq, Eq)]
pub enum Certainty {
    Sure,
    Possible,
}

impl Certainty {
    fn other(self) -> Certainty {
        match self {
            Certainty::Sure => Certainty::Possible,
            Certainty::Possible => Certainty::Sure,
        }
    }
}

impl<'a> Condition<'a> {
    /// 02, Q-12: "`(not c)` is sure if c isn't possible, possible if c isn't sure; `and` and `or` work on each separately."
    pub fn is(&self, certainty: Certainty, value_of: &dyn Fn(Subject) -> Option<Value<'a>>) -> bool {
        match self {
            Condition::Compare(comparison) => match value_of(comparison.subject) {
                Some(left) => compare_range(certainty, comparison.operator, left, comparison.value.value),
                None => false,
            },
            Condition::Not(inner) => !inner.is(certainty.other(), value_of),
            Condition::And(list) => list.iter().all(|c| c.is(certainty, value_of)),
            Condition::Or(list) => list.iter().any(|c| c.is(certainty, value_of)),
        }
    }
}

/// 02, Q-12: "A comparison is sure if it holds for every number in the range, possible if for some."
fn compare_range(certainty: Certainty, operator: Operator, left: Value, right: Value) -> bool {
    let (Value::Range(low, high), Value::Number(r)) = (left, right) else { return compare(operator, left, right) };
    match (certainty, operator) {
        (Certainty::Sure, Operator::Eq) => low == r && high == r,
        (Certainty::Sure, Operator::Ne) => high < r || low > r,
        (Certainty::Sure, Operator::Lt) => high < r,
        (Certainty::Sure, Operator::Le) => high <= r,
        (Certainty::Sure, Operator::Gt) => low > r,
        (Certainty::Sure, Operator::Ge) => low >= r,
        (Certainty::Possible, Operator::Eq) => low <= r && high >= r,
        (Certainty::Possible, Operator::Ne) => low != r || high != r,
        (Certainty::Possible, Operator::Lt) => low < r,
        (Certainty::Possible, Operator::Le) => low <= r,
        (Certainty::Possible, Operator::Gt) => high > r,
        (Certainty::Possible, Operator::Ge) => high >= r,
    }
}

/// 02, Q-3: "equal" keys are those that `eq` finds equal.
pub fn equal(left: Value, right: Value) -> bool {
    compare(Operator::Eq, left, right)
}

/// The meaning of the six operators; mixed types never come here (8 and 16), nor do ranges (27).
fn compare(operator: Operator, left: Value, right: Value) -> bool {
    match (left, right) {
        (Value::Number(l), Value::Number(r)) => in_order(operator, l, r),
        // 02, Q-14: "Order of dates is order of the pair of year and day number."
        (Value::Date(l), Value::Date(r)) => in_order(operator, l.year_day(), r.year_day()),
        // 02, Q-8: without case, "in .. `eq`, `ne` .., cell values included".
        (Value::Name(l), Value::Name(r)) => match operator {
            Operator::Eq => l == r,
            Operator::Ne => l != r,
            _ => false,
        },
        _ => false,
    }
}

/// The six operators over what has an order.
fn in_order<T: Ord>(operator: Operator, l: T, r: T) -> bool {
    match operator {
        Operator::Eq => l == r,
        Operator::Ne => l != r,
        Operator::Lt => l < r,
        Operator::Le => l <= r,
        Operator::Gt => l > r,
        Operator::Ge => l >= r,
    }
}

#[cfg(test)]
mod tests {
    use super::*;

    /// Every range and every number within -4 to 4, by trying each number of the range.
    #[test]
    fn comparisons_of_ranges_by_their_numbers() {
        let all = [Operator::Eq, Operator::Ne, Operator::Lt, Operator::Le, Operator::Gt, Operator::Ge];
        for low in -4..=4i64 {
            for high in low..=4 {
                for r in -5..=5 {
                    for operator in all {
                        let holds = |n: i64| compare(operator, Value::Number(n), Value::Number(r));
                        let is = |certainty| compare_range(certainty, operator, Value::Range(low, high), Value::Number(r));
                        assert_eq!(is(Certainty::Sure), (low..=high).all(holds), "{operator:?} ({low} {high}) {r}");
                        assert_eq!(is(Certainty::Possible), (low..=high).any(holds), "{operator:?} ({low} {high}) {r}");
                    }
                }
            }
        }
    }
}
