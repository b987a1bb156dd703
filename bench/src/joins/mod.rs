//! Joins of loaded documents (02, Q-3) beside SQLite with an index and, where its socket is given, PostgreSQL's hash join.

mod cases;
mod postgres;
#[cfg_attr(not(sqlite), path = "without_sqlite.rs")]
mod sqlite;

use crate::loaded::Loaded;
use crate::peers::shown;
use crate::postgres::{server::Server, ASKER, OWNER};
use crate::samples::Samples;
use crate::{gate, taken};
use cases::{Case, Goal};
use postgres::Postgres;
use sqlite::Sqlite;
use std::hint::black_box;
use std::io::Result;
use std::path::Path;
use std::time::{Duration, Instant};

const SECONDS: u64 = 45;

/// What holds a document between the calls, and a buffer just as long as its answer.
struct Holders {
    loaded: Loaded,
    out: Vec<u8>,
    sqlite: Option<Sqlite>,
    postgres: Option<Postgres>,
}

#[derive(Default)]
struct Times {
    loaded: Samples,
    measured: Samples,
    sqlite: Samples,
    postgres: Samples,
    nothing: Samples,
}

/// Loads a document wherever it can be loaded, all answers being the same; none where the library has no joins.
fn hold(case: &Case, sqlite: Option<Sqlite>, mut postgres: Option<Postgres>) -> Option<Holders> {
    let query = case.query.as_bytes();
    let mut loaded = Loaded::new();
    assert_eq!(loaded.load(&case.text).0, 0, "{}: is loaded", case.name);
    let (number, [len, ..]) = loaded.measure(&case.text, query);
    if number == 11 {
        return None;
    }
    assert_eq!(number, 0, "{}: is measured", case.name);
    let mut out = vec![0; len as usize];
    let (number, figures) = loaded.ask(&case.text, query, &mut out);
    let all = case.rows * case.rows;
    assert_eq!((number, figures), (0, [len, 2, case.passed as u64, 0, (all - case.passed) as u64]), "{}: loaded", case.name);
    let mut text = vec![0; out.len()];
    assert_eq!(gate::ask(&case.text, query, &mut text), (number, figures), "{}: from the text", case.name);
    assert!(text == out, "{}: from the text, the same bytes", case.name);
    if let Some(sqlite) = &sqlite {
        assert!(sqlite.answer(case, out.len()) == out, "{}: SQLite, the same bytes", case.name);
    }
    if let Some(postgres) = &mut postgres {
        let lines = postgres.lines(out.len());
        assert!(sorted(&lines) == sorted(&out[..lines.len()]), "{}: PostgreSQL, the same pairs", case.name);
    }
    Some(Holders { loaded, out, sqlite, postgres })
}

fn sorted(lines: &[u8]) -> Vec<&[u8]> {
    let mut lines: Vec<&[u8]> = lines.split(|&byte| byte == b'\n').collect();
    lines.sort_unstable();
    lines
}

/// One turn of each kind on a join.
fn turn(case: &Case, times: &mut Times, holders: &mut Holders) {
    let Holders { loaded, out, sqlite, postgres } = holders;
    let query = case.query.as_bytes();
    times.loaded.add(taken(|| loaded.ask(black_box(&case.text), query, out)));
    times.measured.add(taken(|| loaded.measure(black_box(&case.text), query)));
    if let Some(sqlite) = sqlite {
        times.sqlite.add(taken(|| sqlite.bare()));
    }
    if let Some(postgres) = postgres {
        times.postgres.add(taken(|| postgres.bare()));
        times.nothing.add(taken(|| postgres.nothing()));
    }
}

fn explain(turns: usize, peers: bool) {
    println!("Joins of a loaded document, two tables of scheme row, all labels open; two names given of each pair. Microseconds, 10th percentile of {turns} turns of 3.");
    println!("loaded: measured and written. measure: its length alone.");
    match crate::sqlite::version() {
        Some(version) => println!("SQLite {version}: prepared, with an index on the second key, labels by masks, every value looked at and none written. Its answers were the same, byte by byte."),
        None => println!("SQLite is left out: no libsqlite3 to link (libsqlite3-dev)."),
    }
    if peers {
        println!("PostgreSQL: its hash join, over a socket, prepared, labels by row-level security; the same pairs, in any order. nothing: SELECT 1. without: less that.");
    } else {
        println!("PostgreSQL is left out: bench/postgres joins starts it.");
    }
    println!("Names are compared without case by all; dates are numbers to the peers.\n");
}

fn row(case: &Case, times: &Times, bytes: usize) {
    let Times { loaded, measured, sqlite, postgres, nothing } = times;
    let [loaded, measured, sqlite, postgres, nothing] = [loaded, measured, sqlite, postgres, nothing].map(Samples::time);
    print!("{:48}{:>6}{:>8}{bytes:>9}", case.name, case.rows, case.passed);
    for time in [loaded, measured, sqlite, postgres, nothing] {
        print!("{:>11}", shown(time, 1));
    }
    for ratio in [loaded / sqlite, loaded / postgres, loaded / (postgres - nothing)] {
        print!("{:>10}", shown(ratio, 2));
    }
    println!();
}

fn verdict(name: &str, what: &str, wanted: f64, found: f64) {
    let said = if found.is_nan() { "not measured" } else if found <= wanted { "met" } else { "missed" };
    println!("{name}: {what}, at most {wanted} wanted, {}: {said}", shown(found, 2));
}

fn goals(cases: &[Case], measured: &[Times], holders: &[Holders]) {
    println!("\nGoals of joins");
    let of_byte = |place: usize| measured[place].loaded.time() / holders[place].out.len() as f64;
    let smallest = cases.iter().position(|case| matches!(case.goal, Goal::Linear(_)));
    for (place, (case, times)) in cases.iter().zip(measured).enumerate() {
        match case.goal {
            Goal::OverSqlite(wanted) => verdict(&case.name, "over SQLite with an index", wanted, times.loaded.time() / times.sqlite.time()),
            Goal::Microseconds(wanted) => verdict(&case.name, "microseconds", wanted, times.loaded.time()),
            Goal::Linear(wanted) => {
                let first = smallest.expect("a case with this goal");
                if place != first {
                    verdict(&case.name, "a byte of the answer, over the smallest", wanted, of_byte(place) / of_byte(first));
                }
            }
        }
    }
}

/// Measures, beside the server whose socket stands in the folder if one is given, and prints a table and the goals.
pub fn measure(folder: Option<&Path>) -> Result<()> {
    let cases = cases::cases();
    let mut owner = folder.map(|folder| Server::connect(folder, OWNER, OWNER)).transpose()?;
    if let Some(owner) = &mut owner {
        owner.run(&format!("CREATE ROLE {ASKER} LOGIN"))?;
    }
    let mut holders = Vec::new();
    for (place, case) in cases.iter().enumerate() {
        let postgres = match (folder, &mut owner) {
            (Some(folder), Some(owner)) => Some(Postgres::open(folder, owner, case, place)?),
            _ => None,
        };
        let Some(held) = hold(case, Sqlite::open(case), postgres) else {
            println!("joins: this libgate.a has no joins (11)");
            return Ok(());
        };
        holders.push(held);
    }
    let seconds = std::env::var("BENCH_SECONDS").ok().and_then(|word| word.parse().ok()).unwrap_or(SECONDS);
    let mut measured: Vec<Times> = cases.iter().map(|_| Times::default()).collect();
    let (start, mut turns) = (Instant::now(), 0);
    while turns < 3 || start.elapsed() < Duration::from_secs(seconds) {
        for ((case, times), holders) in cases.iter().zip(&mut measured).zip(&mut holders) {
            turn(case, times, holders);
        }
        turns += 1;
    }
    explain(turns, folder.is_some());
    print!("{:48}{:>6}{:>8}{:>9}{:>11}{:>11}", "keys", "rows", "passed", "bytes", "loaded", "measure");
    println!("{:>11}{:>11}{:>11}{:>10}{:>10}{:>10}", "SQLite", "PostgreSQL", "nothing", "l/SQLite", "l/Post", "l/without");
    for ((case, times), holders) in cases.iter().zip(&measured).zip(&holders) {
        row(case, times, holders.out.len());
    }
    goals(&cases, &measured, &holders);
    Ok(())
}
