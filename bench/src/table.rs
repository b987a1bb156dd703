//! The tables: times, ratios of the same run, goals and noise.

use crate::documents::{BAD, CELL, CHAIN, Case, DATES, DAYS, NEST};
use crate::{peers, Call, Measured, Samples, CALLS};

/// The largest of some ratios, and of which row.
pub struct Largest(f64, String);

impl Largest {
    pub fn new() -> Largest {
        Largest(0.0, String::new())
    }

    pub fn see(&mut self, ratio: f64, row: &str) {
        if ratio > self.0 {
            *self = Largest(ratio, row.to_string());
        }
    }

    pub fn say(&self, goal: f64, what: &str) {
        let verdict = if self.0 <= goal { "met" } else { "missed" };
        println!("{what}: at most {goal} wanted, largest {:.2} ({}): {verdict}", self.0, self.1);
    }
}

/// The time of a document over that of the one half its size, where there is one.
fn growth(cases: &[Case], measured: &[Measured], place: usize, time: impl Fn(&Measured) -> f64) -> Option<f64> {
    let before = place.checked_sub(1)?;
    if cases[before].scheme == cases[place].scheme {
        Some(time(&measured[place]) / time(&measured[before]))
    } else {
        None
    }
}

fn noise(name: &str, samples: &[&Samples]) {
    if samples.is_empty() {
        return;
    }
    let mut spreads: Vec<(f64, f64)> = samples.iter().map(|times| times.spread()).collect();
    spreads.sort_by(|a, b| a.1.total_cmp(&b.1));
    let middle = spreads[spreads.len() / 2];
    let worst = spreads[spreads.len() - 1];
    println!(
        "  {name:10} median {:.2}, 90th {:.2} times the 10th percentile (the middle row); at worst {:.2} and {:.2}",
        middle.0, middle.1, worst.0, worst.1
    );
}

/// What a row is called where a goal tells of it.
pub fn called(case: &Case, call: &str) -> String {
    let unit = if case.scheme == CHAIN { "purposes" } else { "KB" };
    format!("{} {} {unit} {call}", case.scheme, case.size)
}

fn is_ordinary(case: &Case) -> bool {
    case.scheme != CHAIN && !BAD.contains(&case.scheme)
}

fn explain(turns: usize, in_a_row: usize) {
    println!("Microseconds a call, 10th percentile of {} runs each ({turns} turns of {in_a_row}, all kinds in each turn; the bad inputs: a tenth).", turns * in_a_row);
    println!("Growth: over the row of half its size. bytes: one pass of two byte classes over the same text; nine: the same with nine classes.");
    println!("chain: no rows, 64 and 256 purposes, each below the one before it; growth is that of the second over the first.");
    println!("Bad inputs. full: scheme none, a condition of 64 comparisons that come out alike in most rows; turns: that come out otherwise in nearly every row.");
    println!("dear: 64 labels of 24 bytes alike but for the last two; front: but for the first two; mixed: as dear, used in another case than defined.");
    println!("nots: 64 comparisons below five nots each; alike: 64 of names that are the same; cased: the same but for their case; wide: one column selected sixteen times.");
    println!("gaps: sixteen columns selected, every other cell closed, so that a select gives no row and a blank eight gaps in each.");
    println!("ranges: scheme none, a range for every other amount; ends: 64 comparisons below five nots each with the range of all numbers.");
    println!("Of these two the rows select and blank are of sure and possible.");
    println!("dates: scheme none, three dates in each row; days: the same rows with a number for each; dated: 64 comparisons of dates.");
    println!("nest: the first rows of the cell document, the same cells closed by labels that come down; merged: as gaps, in a nest table.\n");
}

/// The largest document of a scheme, and its times.
fn full<'a>(cases: &'a [Case], measured: &'a [Measured], scheme: &str) -> Option<(&'a Case, &'a Measured)> {
    cases.iter().zip(measured).filter(|(case, _)| case.scheme == scheme).last()
}

/// What labels that come down cost (02, Q-11): a full nest document over a full cell document, checking by the byte and asking by the row.
fn nest_over_cell(cases: &[Case], measured: &[Measured]) {
    let (Some((nest, of_nest)), Some((cell, of_cell))) = (full(cases, measured, NEST), full(cases, measured, CELL)) else { return };
    let bytes = nest.text.len() as f64 / cell.text.len() as f64;
    let rows = nest.rows() as f64 / cell.rows() as f64;
    let over = |at: usize, loaded: bool| {
        let time = |times: &Measured| if loaded { times.calls[at].loaded.time() } else { times.calls[at].gate.time() };
        time(of_nest) / time(of_cell) / if at == 0 { bytes } else { rows }
    };
    println!("nest over cell, full documents of {} and {} rows: check and load a byte, the rest a row", nest.rows(), cell.rows());
    for (name, loaded) in [("from the text", false), ("loaded", true)] {
        let ratios = CALLS.into_iter().enumerate().map(|(at, call)| format!(" {} {:.2}", call.word(), over(at, loaded)));
        println!("  {name}:{}", ratios.collect::<Vec<_>>().join(","));
    }
    let (mut checked, mut selected) = (Largest::new(), Largest::new());
    checked.see(over(0, false), &called(nest, "check"));
    selected.see(over(1, true), &called(nest, "select"));
    checked.say(1.2, "a full nest document checked, over one of cells, a byte");
    selected.say(1.3, "a select over it, loaded, over one of cells, a row");
}

/// What dates cost: the largest document of them over that of as many rows with numbers, in time and in bytes.
fn dates_over_numbers(cases: &[Case], measured: &[Measured]) {
    let (Some((dates, of_dates)), Some((days, of_days))) = (full(cases, measured, DATES), full(cases, measured, DAYS)) else { return };
    print!("dates over numbers, {} rows each:", dates.rows());
    for (at, call) in CALLS.into_iter().enumerate() {
        print!(" {} {:.2},", call.word(), of_dates.calls[at].gate.time() / of_days.calls[at].gate.time());
    }
    println!(" bytes {:.2}", dates.text.len() as f64 / days.text.len() as f64);
}

/// Asking from the text, and its goals.
fn from_text(cases: &[Case], measured: &[Measured]) {
    println!(
        "{:7}{:>7}{:>6} {:7}{:>9}{:>10}{:>8}{:>8}{:>10}{:>9}{:>8}{:>8}",
        "scheme", "bytes", "rows", "call", "gate", "reference", "bytes", "nine", "gate/ref", "g/bytes", "g/nine", "growth"
    );
    let (mut by_reference, mut by_pass, mut by_nine, mut grown) = (Largest::new(), Largest::new(), Largest::new(), Largest::new());
    let (mut selected, mut chained) = (Largest::new(), Largest::new());
    for (place, (case, times)) in cases.iter().zip(measured).enumerate() {
        for (at, call) in CALLS.into_iter().enumerate() {
            let row = called(case, call.word());
            let (gate, reference) = (times.calls[at].gate.time(), times.calls[at].reference.time());
            let (pass, nine) = (times.pass.time(), times.pass_nine.time());
            let growth = growth(cases, measured, place, |other| other.calls[at].gate.time());
            if case.scheme == CHAIN && call != Call::Check {
                chained.see(growth.unwrap_or(0.0), &row);
            }
            if is_ordinary(case) {
                by_reference.see(gate / reference, &row);
                grown.see(growth.unwrap_or(0.0), &row);
            }
            if is_ordinary(case) && case.size == "60" {
                by_pass.see(gate / pass, &row);
                by_nine.see(gate / nine, &row);
                if call == Call::Select {
                    selected.see(gate / pass, &row);
                }
            }
            println!(
                "{:7}{:>7}{:>6} {:7}{gate:>9.1}{reference:>10.1}{pass:>8.1}{nine:>8.1}{:>10.2}{:>9.2}{:>8.2}{:>8}",
                case.scheme,
                case.text.len(),
                case.rows(),
                call.word(),
                gate / reference,
                gate / pass,
                gate / nine,
                growth.map(|ratio| format!("{ratio:.2}")).unwrap_or_default(),
            );
        }
    }
    println!("\nGoals from the text (the bad inputs apart)");
    by_reference.say(1.0, "gate/reference");
    by_pass.say(5.0, "gate/bytes of full documents");
    by_nine.say(5.0, "gate/nine of full documents");
    selected.say(4.2, "gate/bytes of selects of full documents");
    grown.say(2.2, "growth where the text doubles");
    chained.say(2.5, "query with 256 purposes over 64");
    dates_over_numbers(cases, measured);
    nest_over_cell(cases, measured);
}

pub fn print(cases: &[Case], measured: &[Measured], turns: usize, in_a_row: usize) {
    explain(turns, in_a_row);
    from_text(cases, measured);
    peers::print(cases, measured);
    println!("\nNoise: spread of the runs");
    let all = |choose: fn(&Measured) -> Vec<&Samples>| {
        measured.iter().flat_map(choose).filter(|times| times.len() > 0).collect::<Vec<_>>()
    };
    noise("gate", &all(|times| times.calls.iter().map(|call| &call.gate).collect()));
    noise("reference", &all(|times| times.calls.iter().map(|call| &call.reference).collect()));
    noise("loaded", &all(|times| times.calls.iter().map(|call| &call.loaded).collect()));
    noise("SQLite", &all(|times| times.calls.iter().flat_map(|call| call.sqlite()).collect()));
    noise("bytes", &all(|times| vec![&times.pass]));
    noise("nine", &all(|times| vec![&times.pass_nine]));
}
