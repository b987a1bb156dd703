//! The table of the loaded document beside SQLite, with its goals.

use crate::documents::Case;
use crate::table::{called, Largest};
use crate::{Call, Measured, Times, CALLS};

/// At most so many times SQLite's bare select.
const SELECTS: [(&str, f64); 3] = [("none", 0.7), ("row", 0.5), ("cell", 0.35)];
/// At most so many times SQLite's count(*).
const COUNT: f64 = 0.6;
/// A refusal that needs no row, at most so many times the select.
const REFUSAL: f64 = 0.05;
/// SQLite's bare queries, as the goals call them.
const BARE: [&str; 3] = ["masks behind the condition", "masks first", "numbers behind the condition"];

/// A time or a ratio, or a stroke where there is none.
pub fn shown(number: f64, places: usize) -> String {
    if number.is_nan() {
        "-".into()
    } else {
        format!("{number:.places$}")
    }
}

fn explain() {
    println!("\nThe document loaded, beside SQLite that holds the same rows with their labels, in memory, without an index, queries prepared.");
    match crate::sqlite::version() {
        Some(version) => println!("SQLite {version}, by its C interface, names by its collation NOCASE. Its answers were the same, byte by byte."),
        None => println!("SQLite is left out: no libsqlite3 to link (libsqlite3-dev)."),
    }
    println!("text: the gate from the text. loaded: the gate on the loaded document.");
    println!("bare: SQLite's modified query, labels as masks and tested behind the condition, every value looked at and none written.");
    println!("first: the same with the labels tested first. number: labels as numbers, and the query with the set of those that are open.");
    println!("In each form a query of its own tests first that the table or the named columns are open, or that a table without labels is public.");
    println!("blank: the select as a blank; SQLite gives NULL for a closed cell, and its host writes the gap. PostgreSQL is not asked for blanks, and neither of them for ranges, dates and nest tables.");
    println!("counted: bare with the rows written as the gate writes them, and the three counts by plain counts and difference.");
    println!("load: the check of the text, the gate's loading, and under bare SQLite's loading of rows already split into values.");
    println!("refused: the dearest of the refusals that need no row, and what part it is of the loaded select.\n");
}

/// The times of SQLite's bare queries. Where rows have no labels they are one.
fn bare(times: &Times) -> [f64; 3] {
    let bare = times.bare.time();
    [bare, times.labels_first.time(), times.numbered.time()].map(|time| if time.is_nan() { bare } else { time })
}

fn row(case: &Case, word: &str, times: &Times) {
    let (text, loaded) = (times.gate.time(), times.loaded.time());
    let [bare, first, number, counted] = times.sqlite().map(|samples| samples.time());
    print!("{:7}{:>7}{:>6} {word:10}{text:>8.1}{:>8}", case.scheme, case.text.len(), case.rows(), shown(loaded, 1));
    for time in [bare, first, number, counted] {
        print!("{:>9}", shown(time, 1));
    }
    print!("{:>11}{:>11}{:>12}", shown(text / bare, 2), shown(text / counted, 2), shown(loaded / bare, 2));
    for ratio in [loaded / first, loaded / number, loaded / counted] {
        print!("{:>11}", shown(ratio, 2));
    }
    println!();
}

/// The dearest refusal of a loaded document: its number and its time.
fn dearest(case: &Case, times: &Measured) -> Option<(u64, f64)> {
    let times = case.refused.iter().zip(&times.refused).map(|((number, _), times)| (*number, times.time()));
    times.max_by(|a, b| a.1.total_cmp(&b.1))
}

pub fn print(cases: &[Case], measured: &[Measured]) {
    explain();
    print!("{:7}{:>7}{:>6} {:10}{:>8}{:>8}{:>9}{:>9}{:>9}{:>9}", "scheme", "bytes", "rows", "call", "text", "loaded", "bare", "first", "number", "counted");
    println!("{:>11}{:>11}{:>12}{:>11}{:>11}{:>11}", "text/bare", "t/counted", "loaded/bare", "l/first", "l/number", "l/counted");
    for (case, times) in cases.iter().zip(measured) {
        for (call, times) in CALLS.into_iter().zip(&times.calls) {
            row(case, if call == Call::Check { "load" } else { call.word() }, times);
        }
        if let Some((number, time)) = dearest(case, times) {
            let of_select = time / times.calls[1].loaded.time();
            let word = format!("refused {number}");
            println!("{:7}{:>7}{:>6} {word:10}{:>8}{time:>8.2}   {of_select:.3} of the select", case.scheme, case.text.len(), case.rows(), "");
        }
    }
    goals(cases, measured);
}

fn goals(cases: &[Case], measured: &[Measured]) {
    println!("\nGoals of the loaded document");
    let mut refusals = Largest::new();
    for (case, times) in cases.iter().zip(measured) {
        if let Some((number, time)) = dearest(case, times) {
            refusals.see(time / times.calls[1].loaded.time(), &called(case, &format!("refused {number}")));
        }
    }
    refusals.say(REFUSAL, "refusal that needs no row over select");
    if cfg!(not(sqlite)) {
        return;
    }
    for (way, name) in BARE.iter().enumerate() {
        let mut counts = Largest::new();
        for (scheme, goal) in SELECTS {
            let mut selects = Largest::new();
            for (case, times) in cases.iter().zip(measured).filter(|(case, _)| case.scheme == scheme) {
                let over = |times: &Times| times.loaded.time() / bare(times)[way];
                selects.see(over(&times.calls[1]), &called(case, "select"));
                counts.see(over(&times.calls[2]), &called(case, "count"));
            }
            selects.say(goal, &format!("select over SQLite's bare one, {name}, scheme {scheme}"));
        }
        counts.say(COUNT, &format!("count over SQLite's count(*), {name}, schemes none, row and cell"));
    }
}
