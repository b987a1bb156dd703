//! The gate beside the plain reference, a pass of byte classes and SQLite.
//!
//!   bench                     measures and prints the tables
//!   bench worst [WORD]        documents that are dear to check, with WORD in their names
//!   bench postgres FOLDER     PostgreSQL, whose socket stands in the folder: bench/postgres starts it
//!   bench joins [FOLDER]      joins of 512 by 512 rows, beside PostgreSQL too if its folder is given
//!   bench once WHAT KEY       makes one call, for an instruction counter
//!   bench keys                prints the keys
//!   bench text KEY            prints the document; bench query KEY the select

mod bytes;
mod documents;
mod gate;
#[cfg_attr(not(sqlite), allow(dead_code))]
mod joins;
mod loaded;
#[cfg_attr(not(sqlite), allow(dead_code))]
mod modified;
mod peers;
mod plain;
mod postgres;
mod samples;
#[cfg_attr(not(sqlite), path = "without_sqlite.rs")]
mod sqlite;
mod table;
mod worst;
#[cfg_attr(not(sqlite), allow(dead_code))]
mod writing;

use documents::{Case, BAD};
use loaded::Loaded;
use samples::Samples;
use sqlite::Sqlite;
use std::hint::black_box;
use std::io::Write;
use std::time::{Duration, Instant};

/// How long a buffer is lent: room for a column that is selected sixteen times, which no reserve covers.
const BUFFER: usize = 500_000;
/// Calls in a row of one kind, before the next kind has its turn.
const IN_A_ROW: usize = 3;
const SECONDS: u64 = 45;

/// The four calls.
#[derive(Clone, Copy, PartialEq, Eq)]
pub enum Call {
    Check,
    Select,
    Count,
    Blank,
}

pub const CALLS: [Call; 4] = [Call::Check, Call::Select, Call::Count, Call::Blank];

impl Call {
    pub fn word(self) -> &'static str {
        match self {
            Call::Check => "check",
            Call::Select => "select",
            Call::Count => "count",
            Call::Blank => "blank",
        }
    }

    fn query(self, case: &Case) -> &str {
        match self {
            Call::Check => "",
            Call::Select => &case.select,
            Call::Count => &case.count,
            Call::Blank => &case.blank,
        }
    }

    fn gate(self, case: &Case, out: &mut [u8]) -> (u64, [u64; 5]) {
        match self {
            Call::Check => gate::check(&case.text),
            _ => gate::ask(&case.text, self.query(case).as_bytes(), out),
        }
    }

    /// The reference's outcome in the gate's figures.
    fn reference(self, case: &Case, out: &mut [u8]) -> (u64, [u64; 5]) {
        let refused = |refusal: reference::Refusal| (u64::from(refusal.number), [0; 5]);
        match self {
            Call::Check => match plain::reference_check(&case.text) {
                Ok(accepted) => (0, [accepted.lines as u64, accepted.reserve as u64, 0, 0, 0]),
                Err(refusal) => refused(refusal),
            },
            _ => match plain::reference_ask(&case.text, self.query(case).as_bytes(), out) {
                Ok(answer) => {
                    let counts = [answer.len, answer.grant, answer.passed, answer.withheld, answer.unmatched];
                    (0, counts.map(|figure| figure as u64))
                }
                Err(refusal) => refused(refusal),
            },
        }
    }
}

/// The times of one call on one document.
#[derive(Default)]
pub struct Times {
    /// From the text.
    pub gate: Samples,
    pub reference: Samples,
    /// On the loaded document; for `check` the loading.
    pub loaded: Samples,
    /// SQLite's bare query: labels by masks, tested behind the condition. For `check` the loading of the rows.
    pub bare: Samples,
    /// The same with labels tested first, and with labels by numbers, where rows or cells have them.
    pub labels_first: Samples,
    pub numbered: Samples,
    /// The whole answer, with the three counts.
    pub counted: Samples,
}

impl Times {
    pub fn sqlite(&self) -> [&Samples; 4] {
        [&self.bare, &self.labels_first, &self.numbered, &self.counted]
    }
}

/// The times of one document.
#[derive(Default)]
pub struct Measured {
    pub calls: [Times; 4],
    pub pass: Samples,
    pub pass_nine: Samples,
    /// Of each query that is refused, on the loaded document.
    pub refused: Vec<Samples>,
}

/// What holds a document between the calls; SQLite as far as it is there.
struct Holders {
    loaded: Loaded,
    sqlite: Option<Sqlite>,
}

fn key(case: &Case) -> String {
    format!("{}-{}", case.scheme, case.size)
}

/// The nanoseconds of some runs. What a run hands back is dropped when its time is taken.
fn taken<T>(mut run: impl FnMut() -> T) -> Vec<u64> {
    (0..IN_A_ROW)
        .map(|_| {
            let start = Instant::now();
            let made = black_box(run());
            let taken = start.elapsed().as_nanos() as u64;
            drop(made);
            taken
        })
        .collect()
}

/// That the gate and the reference give one answer, bytes and figures. The gate's is handed back.
fn agree(case: &Case, call: Call) -> (Vec<u8>, [u64; 5]) {
    let mut ours = vec![0; BUFFER];
    let mut theirs = vec![0; BUFFER];
    let (number, figures) = call.gate(case, &mut ours);
    assert_eq!(number, 0, "{} is answered", key(case));
    assert_eq!((number, figures), call.reference(case, &mut theirs), "{} {}", key(case), call.word());
    assert!(ours == theirs, "{} {}: the same bytes", key(case), call.word());
    if call != Call::Check {
        ours.truncate(figures[0] as usize);
    }
    (ours, figures)
}

/// That the loaded document gives the same answer, and the same length before.
fn agree_loaded(case: &Case, call: Call, loaded: &Loaded, answer: &[u8], figures: [u64; 5]) {
    let mut out = vec![0; BUFFER];
    let query = call.query(case).as_bytes();
    assert_eq!(loaded.measure(&case.text, query), (0, [figures[0], 0, 0, 0, 0]), "{} {}: loaded, measured", key(case), call.word());
    assert_eq!(loaded.ask(&case.text, query, &mut out), (0, figures), "{} {}: loaded", key(case), call.word());
    assert!(out.starts_with(answer), "{} {}: loaded, the same bytes", key(case), call.word());
}

/// That SQLite gives the same bytes, whichever way it takes, and looks at the same values without writing them.
fn agree_sqlite(case: &Case, call: Call, sqlite: &Sqlite, answer: &[u8]) {
    for (way, said) in sqlite.answers(call).iter().enumerate() {
        assert!(said == answer, "{} {}: SQLite's way {way}, the same bytes", key(case), call.word());
    }
    for looked_at in [sqlite.labels_first(call), sqlite.numbered(call)].into_iter().flatten() {
        assert_eq!(looked_at, sqlite.bare(call), "{} {}: SQLite's values", key(case), call.word());
    }
}

/// Loads a document wherever it can be loaded, all answers being the same.
fn hold(case: &Case) -> Holders {
    let sqlite = if case.is_alone() { None } else { Sqlite::open(case) };
    let mut holders = Holders { loaded: Loaded::new(), sqlite };
    assert_eq!(holders.loaded.load(&case.text).0, 0, "{} is loaded", key(case));
    for call in CALLS {
        let (answer, figures) = agree(case, call);
        if call == Call::Check {
            continue;
        }
        agree_loaded(case, call, &holders.loaded, &answer, figures);
        if let Some(sqlite) = &holders.sqlite {
            agree_sqlite(case, call, sqlite, &answer);
        }
    }
    for (number, query) in &case.refused {
        let said = gate::ask(&case.text, query.as_bytes(), &mut []);
        assert_eq!(said.0, *number, "{}: {query}", key(case));
        assert_eq!(holders.loaded.ask(&case.text, query.as_bytes(), &mut []), said, "{}: loaded, {query}", key(case));
    }
    holders
}

fn turn_loaded(case: &Case, measured: &mut Measured, loaded: &mut Loaded, out: &mut [u8]) {
    for (call, times) in CALLS.into_iter().zip(&mut measured.calls) {
        let query = call.query(case).as_bytes();
        times.loaded.add(match call {
            Call::Check => taken(|| loaded.load(black_box(&case.text))),
            _ => taken(|| loaded.ask(black_box(&case.text), query, out)),
        });
    }
    for ((_, query), times) in case.refused.iter().zip(&mut measured.refused) {
        times.add(taken(|| loaded.ask(black_box(&case.text), query.as_bytes(), out)));
    }
}

/// The loading comes last, since a new database drives the others' rows out of the caches.
fn turn_sqlite(measured: &mut Measured, sqlite: &Sqlite, out: &mut [u8]) {
    for (call, times) in CALLS.into_iter().zip(&mut measured.calls).filter(|(call, _)| *call != Call::Check) {
        times.bare.add(taken(|| sqlite.bare(call)));
        times.counted.add(taken(|| sqlite.counted(call, out)));
        if sqlite.has_labels(call) {
            times.labels_first.add(taken(|| sqlite.labels_first(call)));
            times.numbered.add(taken(|| sqlite.numbered(call)));
        }
    }
    measured.calls[0].bare.add(taken(|| sqlite.load()));
}

/// One turn of each kind on a document.
fn turn(case: &Case, measured: &mut Measured, holders: &mut Holders, out: &mut [u8]) {
    for (call, times) in CALLS.into_iter().zip(&mut measured.calls) {
        times.gate.add(taken(|| call.gate(black_box(case), out)));
        times.reference.add(taken(|| call.reference(black_box(case), out)));
    }
    measured.pass.add(taken(|| bytes::byte_pass(black_box(&case.text))));
    measured.pass_nine.add(taken(|| bytes::byte_pass_nine(black_box(&case.text))));
    turn_loaded(case, measured, &mut holders.loaded, out);
    if let Some(sqlite) = &holders.sqlite {
        turn_sqlite(measured, sqlite, out);
    }
}

fn measure(cases: &[Case]) {
    let mut holders: Vec<Holders> = cases.iter().map(hold).collect();
    let seconds = std::env::var("BENCH_SECONDS").ok().and_then(|word| word.parse().ok()).unwrap_or(SECONDS);
    let refused = |case: &Case| case.refused.iter().map(|_| Samples::default()).collect();
    let mut measured: Vec<Measured> = cases.iter().map(|case| Measured { refused: refused(case), ..Measured::default() }).collect();
    let mut out = vec![0; BUFFER];
    let start = Instant::now();
    let mut turns = 0;
    while turns < 10 || start.elapsed() < Duration::from_secs(seconds) {
        for ((case, measured), holders) in cases.iter().zip(&mut measured).zip(&mut holders) {
            // The bad inputs take longer than the others together, and have their turn once in ten.
            if turns % 10 == 0 || !BAD.contains(&case.scheme) {
                turn(case, measured, holders, &mut out);
            }
        }
        turns += 1;
    }
    table::print(cases, &measured, turns, IN_A_ROW);
}

/// One call, for an instruction counter.
fn once(what: &str, case: &Case) {
    let mut out = vec![0; BUFFER];
    for call in CALLS {
        if what == format!("gate-{}", call.word()) {
            println!("{:?}", call.gate(case, &mut out));
        }
        if what == format!("reference-{}", call.word()) {
            println!("{:?}", call.reference(case, &mut out));
        }
    }
    match what {
        "pass" => println!("{}", bytes::byte_pass(&case.text)),
        "pass-nine" => println!("{}", bytes::byte_pass_nine(&case.text)),
        _ => {}
    }
}

fn main() -> std::io::Result<()> {
    let mut cases = documents::cases();
    cases.extend(documents::ranges());
    cases.extend(documents::dates());
    cases.push(documents::chain("64", 64));
    cases.push(documents::chain("256", 256));
    cases.push(documents::full_condition());
    cases.push(documents::turning_condition());
    cases.push(documents::dear_lookups());
    cases.push(documents::front_lookups());
    cases.push(documents::mixed_lookups());
    cases.push(documents::nested_nots());
    cases.push(documents::cased_names());
    cases.push(documents::alike_names());
    cases.push(documents::wide_answer());
    cases.push(documents::gaps());
    cases.push(documents::merged());
    cases.push(documents::both_ends());
    cases.push(documents::next_days());
    let words: Vec<String> = std::env::args().skip(1).collect();
    let words: Vec<&str> = words.iter().map(String::as_str).collect();
    let named = |wanted: &str| cases.iter().find(|case| key(case) == wanted).expect("a key that `bench keys` prints");
    match words[..] {
        [] => {
            measure(&cases);
            Ok(())
        }
        ["worst"] => {
            worst::measure("");
            Ok(())
        }
        ["worst", word] => {
            worst::measure(word);
            Ok(())
        }
        ["postgres", folder] => postgres::measure(&cases, folder.as_ref()),
        ["joins"] => joins::measure(None),
        ["joins", folder] => joins::measure(Some(folder.as_ref())),
        ["keys"] => {
            for case in &cases {
                println!("{} {}", key(case), case.text.len());
            }
            Ok(())
        }
        ["once", what, wanted] => {
            once(what, named(wanted));
            Ok(())
        }
        ["text", wanted] => std::io::stdout().write_all(&named(wanted).text),
        ["query", wanted] => std::io::stdout().write_all(named(wanted).select.as_bytes()),
        _ => {
            eprintln!("bench | bench worst [WORD] | bench postgres FOLDER | bench joins [FOLDER] | bench once WHAT KEY | bench keys | bench text KEY | bench query KEY");
            std::process::exit(2)
        }
    }
}
