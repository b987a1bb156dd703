//! The joins that are measured (02, Q-3): two tables of 512 rows, a label at each row, all of them open, so that no row is spared.

use crate::documents::{OPEN, POLICY};
use crate::worst::of_one_hash;

/// Rows of each table: a document has 1,024 at most.
const ROWS: usize = 512;
/// How many slots the gate has for keys (crates/linking/src/links.rt `slot`): a key's place is its rank modulo this.
const SLOTS: u64 = 1021;
/// The print of a name, which is its rank: factor and bound (crates/workspace/src/hashes.rt `print_word`).
const FACTOR: u64 = 2_654_435_761;
const PRINTS: u64 = 1 << 32;

/// What is wanted of a join.
#[derive(Clone, Copy, PartialEq)]
pub enum Goal {
    /// At most so many times SQLite with an index on the second key.
    OverSqlite(f64),
    /// At most so many microseconds, whatever the peers take: keys that were chosen to be bad.
    Microseconds(f64),
    /// For each byte of its answer at most so many times what the smallest such join takes.
    Linear(f64),
}

pub struct Case {
    pub name: String,
    pub text: Vec<u8>,
    pub query: String,
    /// Rows of each table, and how many pairs pass.
    pub rows: usize,
    pub passed: usize,
    pub goal: Goal,
}

/// A type of keys, and the keys of both tables.
type Keys<'a> = (&'a str, Vec<String>, Vec<String>);

fn case(name: impl Into<String>, (kind, keys, others): Keys, condition: &str, passed: usize, goal: Goal) -> Case {
    let columns = format!("(k {kind}) (n num) (v name)");
    let mut text = format!("{POLICY}(table a row {columns})\n(table b row {columns})\n");
    for (table, value, keys) in [("a", 'v', &keys), ("b", 'w', &others)] {
        for (number, key) in keys.iter().enumerate() {
            text.push_str(&format!("(row {table} {} {key} {number} {value}{number})\n", OPEN[number % OPEN.len()]));
        }
    }
    let query = format!("(join ana desk post a b k k ((of a v) (of b v)){condition})");
    Case { name: name.into(), text: text.into_bytes(), query, rows: keys.len(), passed, goal }
}

/// So many keys from a number on; those of the second table stand in another order.
fn keys(from: usize, key: impl Fn(usize) -> String) -> Vec<String> {
    (from..from + ROWS).map(key).collect()
}

fn mixed(keys: Vec<String>) -> Vec<String> {
    (0..keys.len()).map(|place| keys[(place * 301 + 7) % keys.len()].clone()).collect()
}

fn name(number: usize) -> String {
    format!("Subscriber-{number:04}")
}

fn number(number: usize) -> String {
    format!("{}", number * 7_919 + 13)
}

fn date(number: usize) -> String {
    format!("({} {} {})", 1940 + number / 12, 1 + number % 12, 1 + number % 28)
}

const TYPES: [(&str, &str, fn(usize) -> String); 3] = [("names", "name", name), ("numbers", "num", number), ("dates", "date", date)];

/// Dates of one slot. Their rank is 367 times the year and the day's number in it (calendar `pair_rank`).
fn slot_dates(from: usize) -> Vec<String> {
    let days = (1..10_000u64).filter_map(|year| {
        let mut day = SLOTS - year * 367 % SLOTS;
        let leap = year % 4 == 0 && (year % 100 != 0 || year % 400 == 0);
        for (month, long) in (1..).zip([31, 28 + u64::from(leap), 31, 30, 31, 30, 31, 31, 30, 31, 30, 31]) {
            if day <= long {
                return Some(format!("({year} {month} {day})"));
            }
            day -= long;
        }
        None
    });
    days.skip(from).take(ROWS).collect()
}

/// Names of one slot, whose prints differ.
fn slot_names(from: usize) -> Vec<String> {
    let print = |name: &str| name.bytes().fold(0, |print, byte| (FACTOR * print + u64::from(byte)) % PRINTS);
    (0..).map(|number| format!("key-{number}")).filter(|name| print(name) % SLOTS == 0).skip(from).take(ROWS).collect()
}

/// All keys equal, and which pairs pass told by a condition, which peers may test before they look for a partner if it is on one table.
fn all_equal(kind: &'static str, key: String, on: &str, condition: &str, goal: f64) -> Case {
    let keys = (kind, vec![key.clone(); ROWS], vec![key; ROWS]);
    let kind = if kind == "num" { "numbers" } else { "names" };
    case(format!("{kind}, all equal, a condition on {on}"), keys, condition, ROWS, Goal::OverSqlite(goal))
}

/// All pairs pass.
fn all_passing(rows: usize) -> Case {
    let keys = ("num", vec![number(1); rows], vec![number(1); rows]);
    case(format!("numbers, {rows} by {rows}, all pairs pass"), keys, "", rows * rows, Goal::Linear(1.25))
}

/// Keys of which none is equal to another, though all are found in one place.
fn one_place(name: &str, kind: &'static str, keys: Vec<String>, others: Vec<String>) -> Case {
    case(name, (kind, keys, others), "", 0, Goal::Microseconds(2_000.0))
}

pub fn cases() -> Vec<Case> {
    let half = Goal::OverSqlite(0.5);
    let mut cases = Vec::new();
    for (types, kind, key) in TYPES {
        cases.push(case(format!("{types}, one to one"), (kind, keys(0, key), mixed(keys(0, key))), "", ROWS, half));
        cases.push(case(format!("{types}, no match"), (kind, keys(0, key), mixed(keys(ROWS, key))), "", 0, half));
    }
    let (on_both, on_one) = (" (or (gt (of a n) 511) (eq (of b n) 7))", " (eq (of a n) 7)");
    cases.push(all_equal("name", name(1), "both tables", on_both, 0.25));
    cases.push(all_equal("num", number(1), "both tables", on_both, 0.25));
    cases.push(all_equal("num", number(1), "one table", on_one, 0.25));
    cases.extend([128, 256, 512].map(all_passing));
    let step = |number: usize| format!("{}", SLOTS as usize * number);
    let printed = of_one_hash(2 * ROWS, FACTOR, PRINTS);
    cases.push(one_place("numbers of one slot", "num", keys(0, step), keys(ROWS, step)));
    cases.push(one_place("dates of one slot", "date", slot_dates(0), slot_dates(ROWS)));
    cases.push(one_place("names of one slot", "name", slot_names(0), slot_names(ROWS)));
    cases.push(one_place("names of one print", "name", printed[..ROWS].to_vec(), printed[ROWS..].to_vec()));
    cases
}
