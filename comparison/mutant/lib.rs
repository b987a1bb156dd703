//! The reference with one blunder switched on, for `comparison --mutant K`: most modules are the
//! reference's own files; `answer`, `ask`, `check`, `import`, `join`, `nest` and `why` are copies with the blunders in them, and `dates`
//! has those of dates.

use std::ops::RangeInclusive;
use std::sync::atomic::{AtomicU32, Ordering};

mod answer;
mod ask;
mod check;
#[path = "../../reference/src/clock.rs"]
pub mod clock;
#[path = "../../reference/src/condition.rs"]
pub mod condition;
#[path = "../../reference/src/date.rs"]
pub mod date;
mod dates;
#[path = "../../reference/src/forms.rs"]
pub mod forms;
mod import;
mod join;
mod nest;
#[path = "../../reference/src/policy.rs"]
pub mod policy;
#[path = "../../reference/src/purpose.rs"]
pub mod purpose;
#[path = "../../reference/src/query.rs"]
pub mod query;
#[path = "../../reference/src/refusal.rs"]
pub mod refusal;
#[path = "../../reference/src/rules.rs"]
pub mod rules;
#[path = "../../reference/src/text.rs"]
pub mod text;
mod why;

pub use answer::Answer;
pub use ask::ask;
pub use check::{check, Accepted};
pub use clock::Clock;
pub use import::{import, measure_import};
pub use refusal::{Refusal, Source};
pub use why::why;

/// What each mutant does wrong, counted from 1.
pub const BLUNDERS: [&str; 176] = [
    "a denied purpose closes downwards only",
    "labels tested for selected columns only",
    "withheld counted only where the condition holds",
    "a grant matched by equal purpose only",
    "a conditional role matched by equal role only",
    "a column in a branch that wasn't reached is skipped",
    "scheme row withholds only where a column is named",
    "18 said for the answer without its condition",
    "bytes written on 18",
    "the last grant given, not the first",
    "5 tested before 4",
    "for 8 the rightmost item given",
    "7 tested before 5",
    "3 tested after 4",
    "9 tested before 5",
    "15 tested before 13 and 14",
    "a lone carriage return ends a record",
    "a blank line is no record",
    "a quote inside a plain field is data",
    "a doubled quote closes its field",
    "20 given before a 19 further down",
    "table and label tested before the records",
    "table and label tested after the fields",
    "table and label not tested where there is no record",
    "the label not tested",
    "a line ending at the file's end starts a record",
    "lines written on 21",
    "the first record left out as a header",
    "a query's columns looked up by their bytes",
    "a cell printed in small letters",
    "`eq` and `ne` of a query compare bytes",
    "a second definition in another case taken",
    "a query's keyword known by its bytes",
    "a column named in another case not counted as named",
    "an undeclared table open to every purpose",
    "a `public` line opens a labelled table",
    "a second `public` line taken",
    "a second `public` line of a labelled table taken",
    "a `public` line behind a row of its table does nothing",
    "an undeclared table refused before its columns and types are looked at",
    "the reserve without the end line",
    "the reserve of the last table, not of the longest answer",
    "a row's label counted in the reserve",
    "a blank withheld for a closed cell that is only selected",
    "a closed cell printed by a blank",
    "a blank as long as its value",
    "scheme row withholds nothing from a blank",
    "a closed cell selected again printed by a blank",
    "a blank withheld for its selected cells, not for those of its condition",
    "a cell in a blank's condition that is selected too doesn't withhold",
    "a closed column that a blank only selects not refused",
    "a range compared by its lower end alone",
    "`not` doesn't exchange sure and possible",
    "sure passes what is possible",
    "27 not for ranges in rows withheld by their label",
    "27 tested after 17",
    "27 for selected columns only",
    "28 tested before 8",
    "a range of two equal ends printed as a number",
    "the reserve without a range's bracket and space",
    "28 for the first range of a row only",
    "a year divisible by 400 is no leap year",
    "a year divisible by 100 is a leap year",
    "the years 0 and 10000 have dates",
    "a day 31 in every month",
    "dates ordered by day number before year",
    "dates ordered by day before month",
    "31 tested before 28",
    "31 tested before 8",
    "31 for the first date of a row only",
    "31 tested before 16",
    "31 tested before 27",
    "31 tested after 17",
    "no 31 in a query",
    "a date taken as a range by 27",
    "dates take `eq` and `ne` only",
    "month and day printed with two digits",
    "the reserve without a date's bracket and spaces",
    "denied sets closed again when merged",
    "a lower allowed set takes from its own denied set too",
    "a lower allowed set takes nothing from what was denied above",
    "a lower allowed set takes its members alone, not their descendants",
    "a lower denied set takes the place of what was denied above",
    "a lower allowed set takes the place of what was allowed above",
    "labels merged from the cell up",
    "the row's label merged over the cell's",
    "weak labels decide before strong ones",
    "strongly allowed doesn't open",
    "strongly denied doesn't close",
    "strongly allowed decides before strongly denied",
    "weak denied sets closed downwards only",
    "the strong denied set closed downwards only",
    "weak denied sets not closed before merging",
    "a nest cell closed by its own label alone",
    "the table's weak label left out",
    "the row's label left out of its cells",
    "a nest row withheld for its own label",
    "a nest table whose weak label is closed refused with 17",
    "an undeclared nest table refused with 17",
    "a `public` line opens a nest table",
    "a nest table's closed cell printed by a blank",
    "a blank of a nest table withheld for a closed cell that is only selected",
    "25 not given behind a row",
    "25 not given for a second line",
    "25 not given for a second line with the same label",
    "25 not given for a table of another scheme",
    "25 tested before 5",
    "25 at the table, not at the whole line",
    "25 behind a row of any table",
    "25 for the second of a weak and a strong line",
    "25 behind a `public` line",
    "a nest row's own label not looked up for 5",
    "of a nest row the cells' labels looked up first",
    "a lower allowed set takes from the strong denied set",
    "a nest row without its own label 7 before its cells' labels are looked up",
    "a nest table's allowed sets without the purposes from the 65th on",
    "a nest table's denied sets without the purposes from the 193rd on",
    "a why line's denied purpose shuts what is below it alone",
    "a why line's denied purpose shuts what is above it alone",
    "a why line told the label's first denied purpose, though it is unrelated",
    "a why line told the last denied purpose, not the first",
    "a why line told the denied purpose whose purpose line is first",
    "a why line told a denied purpose as its purpose line wrote it",
    "a why line told the label of the row's first cell",
    "a why line told the label of the table's first column",
    "24 tested before 23",
    "26 tested before 24",
    "26 tested before 23",
    "a why line told `(closed allow)` where a denied purpose shuts too",
    "a why line told `(closed allow)` of an undeclared table",
    "a `public` line opens a labelled table to why lines",
    "a why line's rows counted over all tables",
    "a why line's rows counted from 1",
    "a why line with a row below 0 is 11",
    "the rightmost unknown item given for 23",
    "a why line's keyword known by its bytes",
    "a why line's column looked up by its bytes",
    "a why line doesn't look at denied purposes from the 65th on",
    "a nest table explained by its cells' labels",
    "a join's second key not counted as named",
    "a join's first key not counted as named",
    "a join withholds nothing",
    "a pair given though its second row is withheld",
    "a pair given though its first row is withheld",
    "22 tested after the types",
    "22 tested before 15",
    "22 not given for a table written in another case",
    "a table joined with itself answered",
    "keys of withheld rows read: their pairs unmatched where these differ",
    "an `of` names its column in both tables",
    "a column of a join's condition read in the first table that has it",
    "a joined column printed from the first table that has it",
    "pairs by the second table's rows, then the first's",
    "a join's keys compared by their bytes",
    "keys of different types unmatched, not 16",
    "16 for keys of different types at the first one",
    "16 of a join's condition before that of its keys",
    "27 not for a join's keys",
    "27 not for a join's second table",
    "27 tested after 17 in a join",
    "no 31 in a join",
    "31 tested after 17 in a join",
    "17 not for a join's second table",
    "17 not for a closed key column",
    "an `of` with a third table looked up in the second",
    "15 at the column of an `of` with neither table",
    "15 of a join's columns before that of its keys",
    "a withheld row of the first table counted once, not in each of its pairs",
    "only the first match of a row given",
    "an `of` in the condition not counted as named",
    "an `of`'s table known by its bytes",
    "a pair that fails the condition alone not counted",
    "dates as keys compared without their year",
    "a plain column taken in a join",
    "27 not for ranges in rows withheld from a join by their label",
    "every cell of a join's second table counted as named",
];

/// These blunders are of joins (02, Q-3).
pub const JOINING: RangeInclusive<u32> = 140..=176;

/// These blunders are of importing.
pub const IMPORTING: RangeInclusive<u32> = 17..=28;

static BLUNDER: AtomicU32 = AtomicU32::new(0);

/// Switches one blunder on.
pub fn switch(blunder: u32) {
    BLUNDER.store(blunder, Ordering::Relaxed);
}

/// Whether a blunder is on.
pub(crate) fn on(blunder: u32) -> bool {
    BLUNDER.load(Ordering::Relaxed) == blunder
}
