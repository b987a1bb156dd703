//! Importing comma-separated files: the gate beside a plain Rust reader and Python's csv module.
//!
//!   importing [FILE ..]        measures and prints the table, of these files (as narrow-1M) or of all
//!   importing once WHAT FILE   makes one call, for an instruction counter: gate, measure, plain, plain-measure, plain-lines
//!   importing text FILE        prints the file

#[path = "../child.rs"]
mod child;
mod files;
mod gate;
mod plain;
#[path = "../samples.rs"]
mod samples;

use child::Child;
use files::{Shape, SHAPES, SIZES};
use samples::Samples;
use std::hint::black_box;
use std::io::Write;
use std::time::{Duration, Instant};

const TABLE: &[u8] = b"sub";
const LABEL: &[u8] = b"free";
/// Seconds for each file, Python's turns apart.
const SECONDS: f64 = 1.2;

struct Case {
    shape: Shape,
    size: &'static str,
    bytes: usize,
}

impl Case {
    fn key(&self) -> String {
        format!("{}-{}", self.shape.word(), self.size)
    }
}

fn cases() -> Vec<Case> {
    let sizes = |shape| SIZES.into_iter().map(move |(size, bytes)| Case { shape, size, bytes });
    // The lines of the tiniest records are nearly nine times as long as the file: the largest size is left out.
    SHAPES.into_iter().flat_map(sizes).filter(|case| case.shape != Shape::Tiny || case.size != "64M").collect()
}

/// The times of one file.
#[derive(Default)]
struct Times {
    import: Samples,
    measure: Samples,
    plain: Samples,
    plain_measure: Samples,
    plain_lines: Samples,
    python: Samples,
}

fn timed<T>(samples: &mut Samples, run: impl FnOnce() -> T) {
    let start = Instant::now();
    black_box(run());
    samples.add([start.elapsed().as_nanos() as u64]);
}

/// That all give the same lines, byte by byte; the lines.
fn agree(key: &str, file: &[u8], path: &str, python: &mut Child) -> std::io::Result<Vec<u8>> {
    let lines = plain::plain_lines(file, TABLE, LABEL).expect("a file without faults");
    let length = lines.len();
    assert_eq!(gate::measure(file, TABLE, LABEL), (0, [length as u64, 0, 0, 0, 0]), "{key}: the gate's length");
    assert_eq!(plain::plain_measure(file, TABLE, LABEL), Ok(length), "{key}: the plain reader's length");
    let mut out = vec![b'#'; length];
    assert_eq!(gate::import(file, TABLE, LABEL, &mut out), (0, [length as u64, 0, 0, 0, 0]), "{key}: the gate's figures");
    assert!(out == lines, "{key}: the gate's bytes");
    out.fill(b'#');
    assert_eq!(plain::plain_import(file, TABLE, LABEL, &mut out), Ok(length));
    assert!(out == lines, "{key}: the plain reader's bytes");
    if length > 0 {
        assert_eq!(gate::import(file, TABLE, LABEL, &mut out[1..]), (21, [3, 0, 0, 0, 0]), "{key}: one byte less");
        assert!(out == lines, "{key}: a refusal leaves the buffer as it was");
    }
    if file.len() <= 1_100_000 {
        assert_eq!(reference::import(file, TABLE, LABEL, &mut out), Ok(length));
        assert!(out == lines, "{key}: the reference's bytes");
    }
    let said = python.tell(&format!("write {path} sub free {path}.lines"))?;
    assert_eq!(said, length.to_string(), "{key}: Python's length");
    assert!(std::fs::read(format!("{path}.lines"))? == lines, "{key}: Python's bytes");
    std::fs::remove_file(format!("{path}.lines"))?;
    Ok(lines)
}

/// Files that are refused: the plain reader is no reader of valid files alone.
fn agree_on_refusals() {
    let faults: [&[u8]; 9] = [b"a\n?\nb\n", b"a\n\"b\n", b"a\nb\rc\n", b"a,b\nc\n", b"?\na,b\n", b"\"a\"\"b\"\n", b"a\n\n", b"a\"b\n", b"01\n"];
    for fault in faults {
        for (table, label) in [(TABLE, LABEL), (&b"1"[..], LABEL), (TABLE, &b""[..])] {
            let mut out = [b'#'; 100];
            let theirs = plain::plain_import(fault, table, label, &mut out).expect_err("a fault");
            assert_eq!(plain::plain_lines(fault, table, label), Err(theirs));
            assert_eq!(gate::import(fault, table, label, &mut out), (theirs.number, [3, theirs.start as u64, 0, 0, 0]), "{}", fault.escape_ascii());
            assert_eq!(gate::measure(fault, table, label), (theirs.number, [3, theirs.start as u64, 0, 0, 0]));
            assert_eq!(out, [b'#'; 100]);
        }
    }
}

/// All kinds in each turn; Python fewer times, for the time it takes.
fn measure(file: &[u8], path: &str, out: &mut [u8], python: &mut Child) -> std::io::Result<Times> {
    let mut times = Times::default();
    let start = Instant::now();
    let mut turns = 0;
    while turns < 5 || start.elapsed() < Duration::from_secs_f64(SECONDS) {
        timed(&mut times.import, || gate::import(black_box(file), TABLE, LABEL, out));
        timed(&mut times.plain, || plain::plain_import(black_box(file), TABLE, LABEL, out));
        timed(&mut times.measure, || gate::measure(black_box(file), TABLE, LABEL));
        timed(&mut times.plain_measure, || plain::plain_measure(black_box(file), TABLE, LABEL));
        timed(&mut times.plain_lines, || plain::plain_lines(black_box(file), TABLE, LABEL));
        turns += 1;
    }
    let runs = if file.len() > 10_000_000 { 1 } else if file.len() > 100_000 { 5 } else { 50 };
    times.python.add(python.tell(&format!("time {path} sub free {runs}"))?.split(' ').filter_map(|word| word.parse().ok()));
    Ok(times)
}

/// Megabytes of the file a second; a sample's time is in microseconds.
fn speed(bytes: usize, samples: &Samples) -> f64 {
    bytes as f64 / samples.time()
}

/// One row of the table; the gate's speed over those of the plain reader and of the one that grows a vector.
fn print_row(case: &Case, file: &[u8], lines: &[u8], times: &Times) -> (f64, f64) {
    let [import, measured, plain, plain_measured, grown, python] =
        [&times.import, &times.measure, &times.plain, &times.plain_measure, &times.plain_lines, &times.python].map(|samples| speed(file.len(), samples));
    let both = 1.0 / (1.0 / import + 1.0 / measured);
    println!(
        "{:7}{:>5}{:>10}{:>11}{:>6}{import:>8.0}{measured:>8.0}{both:>8.0}{plain:>8.0}{plain_measured:>8.0}{grown:>8.0}{python:>8.0}{:>9.2}{:>9.2}{:>7.2}{:>10.1}{:>7.2}",
        case.shape.word(),
        case.size,
        file.len(),
        lines.len(),
        times.import.len(),
        import / plain,
        import / grown,
        measured / plain_measured,
        import / python,
        times.import.spread().1,
    );
    (import / plain, import / grown)
}

/// The least of some ratios, and of which file.
struct Least(f64, String);

impl Least {
    fn see(&mut self, ratio: f64, key: String) {
        if ratio < self.0 {
            *self = Least(ratio, key);
        }
    }
}

fn table(wanted: &[String]) -> std::io::Result<()> {
    let folder = std::env::temp_dir().join(format!("bench-{}", std::process::id()));
    std::fs::create_dir_all(&folder)?;
    let mut python = Child::start(&std::env::var("BENCH_CSV").unwrap_or_else(|_| "csv_lines.py".to_string()))?;
    agree_on_refusals();
    println!("Megabytes of the file a second, by the 10th percentile of the runs; all kinds in each turn. The lines of all are compared first.");
    println!("gate: gate_import into a lent buffer of the right length; measure: gate_measure_import; both: one after the other.");
    println!("plain: the plain Rust reader, which validates and then writes into a lent slice; p-meas: its measuring; grown: the same in one pass");
    println!("into a vector. Python: csv.reader and join. Ratios above 1: the gate is faster; m/m: measuring. noise: 90th over 10th percentile of the gate.\n");
    println!(
        "{:7}{:>5}{:>10}{:>11}{:>6}{:>8}{:>8}{:>8}{:>8}{:>8}{:>8}{:>8}{:>9}{:>9}{:>7}{:>10}{:>7}",
        "shape", "size", "bytes", "written", "runs", "gate", "measure", "both", "plain", "p-meas", "grown", "Python", "g/plain", "g/grown", "m/m", "g/Python", "noise"
    );
    let (mut by_plain, mut by_grown) = (Least(f64::INFINITY, String::new()), Least(f64::INFINITY, String::new()));
    for case in cases().iter().filter(|case| wanted.is_empty() || wanted.contains(&case.key())) {
        let file = case.shape.file(case.bytes);
        let path = folder.join(case.key()).display().to_string();
        std::fs::write(&path, &file)?;
        let lines = agree(&case.key(), &file, &path, &mut python)?;
        let mut out = vec![0; lines.len()];
        let times = measure(&file, &path, &mut out, &mut python)?;
        let (plain, grown) = print_row(case, &file, &lines, &times);
        by_plain.see(plain, case.key());
        by_grown.see(grown, case.key());
        std::fs::remove_file(&path)?;
    }
    python.stop()?;
    std::fs::remove_dir_all(&folder)?;
    let verdict = if by_plain.0 >= 1.0 { "met" } else { "missed" };
    println!("\ngate over the plain reader: at least 1.0 wanted, least {:.2} ({}): {verdict}", by_plain.0, by_plain.1);
    println!("gate over the reader that grows a vector: least {:.2} ({})", by_grown.0, by_grown.1);
    Ok(())
}

fn once(what: &str, file: &[u8]) {
    // By none of those that are counted.
    let length = reference::measure_import(file, TABLE, LABEL).expect("a file without faults");
    let mut out = vec![0; length];
    match what {
        "gate" => println!("{:?}", gate::import(file, TABLE, LABEL, &mut out)),
        "measure" => println!("{:?}", gate::measure(file, TABLE, LABEL)),
        "plain" => println!("{:?}", plain::plain_import(file, TABLE, LABEL, &mut out)),
        "plain-measure" => println!("{:?}", plain::plain_measure(file, TABLE, LABEL)),
        "plain-lines" => println!("{:?}", plain::plain_lines(file, TABLE, LABEL).map(|lines| lines.len())),
        _ => eprintln!("once: {what} is not known"),
    }
}

fn main() -> std::io::Result<()> {
    let words: Vec<String> = std::env::args().skip(1).collect();
    let named = |wanted: &str| {
        let case = cases().into_iter().find(|case| case.key() == wanted).expect("a file as narrow-1M");
        case.shape.file(case.bytes)
    };
    match words.iter().map(String::as_str).collect::<Vec<_>>()[..] {
        ["once", what, wanted] => {
            once(what, &named(wanted));
            Ok(())
        }
        ["text", wanted] => std::io::stdout().write_all(&named(wanted)),
        _ => table(&words),
    }
}
