//! Blunders 62 to 67 and 70: which dates there are, and their order.

use crate::condition::{Comparison, Condition};
use crate::date::Date;
use crate::forms::{Form, Given, RowItem, Value};
use crate::on;
use crate::text::Span;

/// Whether there is such a date.
fn exists(date: Date) -> bool {
    let Date { year, month, day } = date;
    let known = |year: i64| Date { year, ..date }.exists();
    match (month, day) {
        (2, 29) if on(62) => date.exists() && year % 400 != 0,
        (2, 29) if on(63) => date.exists() || (1..=9999).contains(&year) && year % 100 == 0,
        (1..=12, 31) if on(65) => (1..=9999).contains(&year),
        _ if on(64) && (year == 0 || year == 10_000) => known(2000),
        _ => date.exists(),
    }
}

fn no_such(value: Value) -> bool {
    matches!(value, Value::Date(date) if !exists(date))
}

/// Where a row's dates of no day stand.
pub fn of_row(form: &Form) -> Vec<Span> {
    let Form::Row { items, .. } = form else { return Vec::new() };
    let mut dates: Vec<&Given> = Vec::new();
    for item in items {
        let (RowItem::Plain(given) | RowItem::Labelled(given, _)) = item;
        if matches!(given.value, Value::Date(_)) {
            dates.push(given);
        }
    }
    // Blunder 70.
    if on(70) {
        dates.truncate(1);
    }
    dates.into_iter().filter(|given| no_such(given.value)).map(|given| given.span).collect()
}

/// Where a condition's dates of no day stand.
pub fn of_condition(condition: &Condition) -> Vec<Span> {
    let wrong = |comparison: &&Comparison| no_such(comparison.value.value);
    condition.comparisons().into_iter().filter(wrong).map(|comparison| comparison.value.span).collect()
}

/// What dates are ordered by.
pub fn key(date: Date) -> (i64, i64, i64) {
    let (year, number) = date.year_day();
    match () {
        () if on(66) => (number, year, 0),
        () if on(67) => (year, date.day, date.month),
        () => (year, number, 0),
    }
}
