//! PostgreSQL with the same rows, beside the gate. Labels of rows are tested by row-level security, a policy of the role that asks; labels
//! of cells, which depend on the columns that a query names, by the modified query.

pub mod server;

use crate::documents::Case;
use crate::loaded::Loaded;
use crate::modified::{Compared, Document, Held, Modified, Table, Value};
use crate::samples::Samples;
use crate::writing::Writing;
use crate::{key, taken, Call, BUFFER};
use server::{fields, number, Server, Statement};
use std::hint::black_box;
use std::io::Result;
use std::path::Path;
use std::time::{Duration, Instant};

const SECONDS: u64 = 10;
/// The full documents of these schemes.
const SCHEMES: [&str; 3] = ["none", "row", "cell"];
/// Who owns the tables, and who asks and has to obey the policies.
pub const OWNER: &str = "postgres";
pub const ASKER: &str = "asker";

pub fn fill(owner: &mut Server, table: &Table) -> Result<()> {
    owner.run(&table.create())?;
    for row in &table.rows {
        let values = row.iter().map(|value| match value {
            Value::Name(name) => format!("'{name}'"),
            Value::Number(number) => number.to_string(),
        });
        owner.run(&format!("INSERT INTO {} VALUES ({})", table.name, values.collect::<Vec<_>>().join(", ")))?;
    }
    Ok(())
}

/// The query as it is asked: where row-level security tests the labels, the query doesn't.
fn asked(case: &Case, modified: Modified) -> String {
    let opened = if case.scheme == "row" { None } else { modified.opened.clone() };
    Modified { opened, ..modified }.rows()
}

/// A document in the server, its two queries and one that asks for nothing.
struct Postgres {
    asker: Server,
    select: Statement,
    count: Statement,
    nothing: Statement,
    holds_numbers: Vec<bool>,
}

impl Postgres {
    /// Each document has a schema of its own.
    fn open(folder: &Path, owner: &mut Server, case: &Case) -> Result<Postgres> {
        let document = Document::read(&case.text, Held::Masks, Compared::Lowered);
        let (select, count) = (document.modify(&case.select), document.modify(&case.count));
        let schema = key(case).replace('-', "_");
        owner.run(&format!("CREATE SCHEMA {schema}; GRANT USAGE ON SCHEMA {schema} TO {ASKER}; SET search_path TO {schema}"))?;
        for table in &document.tables {
            fill(owner, table)?;
            // The server's own way to close a table: it tests at each query what the role may read.
            if document.serves(table) {
                owner.run(&format!("GRANT SELECT ON {} TO {ASKER}", table.name))?;
            }
        }
        if let (Some(opened), "row") = (&select.opened, case.scheme) {
            let table = &select.table;
            owner.run(&format!("ALTER TABLE {table} ENABLE ROW LEVEL SECURITY; CREATE POLICY purpose ON {table} FOR SELECT TO {ASKER} USING ({opened})"))?;
        }
        owner.run("VACUUM ANALYZE")?;
        let mut asker = Server::connect(folder, ASKER, OWNER)?;
        asker.run(&format!("SET search_path TO {schema}"))?;
        Ok(Postgres {
            holds_numbers: select.holds_numbers.clone(),
            select: asker.prepare("rows", &asked(case, select))?,
            count: asker.prepare("number", &asked(case, count))?,
            nothing: asker.prepare("nothing", "SELECT 1")?,
            asker,
        })
    }

    /// Looks at every value and writes none; of a count, at the number. Sums them.
    fn bare(&mut self, call: Call) -> u64 {
        let (mut sum, holds_numbers) = (0, &self.holds_numbers);
        match call {
            Call::Select => self.asker.ask(&self.select, |row| {
                for (field, &holds_numbers) in fields(row).zip(holds_numbers) {
                    sum += if holds_numbers { number(field) as u64 } else { field.len() as u64 };
                }
            }),
            _ => self.asker.ask(&self.count, |row| sum += fields(row).map(|field| number(field) as u64).sum::<u64>()),
        }
        sum
    }

    /// The row lines of the select.
    fn lines(&mut self) -> Vec<u8> {
        let (mut out, holds_numbers) = (vec![0; BUFFER], &self.holds_numbers);
        let mut writing = Writing::new(&mut out);
        self.asker.ask(&self.select, |row| {
            let fields: Vec<&[u8]> = fields(row).collect();
            writing.row(holds_numbers, |place| number(fields[place]), |place| fields[place]);
        });
        let len = writing.len();
        out.truncate(len);
        out
    }
}

/// That the server gives the gate's rows, byte by byte, and its number of them.
fn agree(case: &Case, postgres: &mut Postgres) {
    let mut out = vec![0; BUFFER];
    let (number, figures) = Call::Select.gate(case, &mut out);
    assert_eq!(number, 0, "{} is answered", key(case));
    let end = format!("(end {} {} {})\n", figures[2], figures[3], figures[4]);
    let answer = [postgres.lines(), end.into_bytes()].concat();
    assert!(out[..figures[0] as usize] == answer, "{}: PostgreSQL, the same rows", key(case));
    let (_, figures) = Call::Count.gate(case, &mut out);
    assert_eq!(postgres.bare(Call::Count), figures[2], "{}: PostgreSQL, the same number", key(case));
}

/// The times of one call.
#[derive(Default)]
struct Times {
    text: Samples,
    loaded: Samples,
    server: Samples,
}

fn measure_case(case: &Case, postgres: &mut Postgres, seconds: u64) {
    agree(case, postgres);
    let mut loaded = Loaded::new();
    assert_eq!(loaded.load(&case.text).0, 0, "{} is loaded", key(case));
    let mut out = vec![0; BUFFER];
    let (mut measured, mut nothing) = ([Times::default(), Times::default()], Samples::default());
    let start = Instant::now();
    while start.elapsed() < Duration::from_secs(seconds) {
        for (call, times) in [Call::Select, Call::Count].into_iter().zip(&mut measured) {
            times.text.add(taken(|| call.gate(black_box(case), &mut out)));
            times.loaded.add(taken(|| loaded.ask(black_box(&case.text), call.query(case).as_bytes(), &mut out)));
            times.server.add(taken(|| postgres.bare(call)));
        }
        nothing.add(taken(|| postgres.asker.ask(&postgres.nothing, |_| {})));
    }
    for (call, times) in [Call::Select, Call::Count].into_iter().zip(&measured) {
        let [text, loaded, server, nothing] = [&times.text, &times.loaded, &times.server, &nothing].map(Samples::time);
        print!("{:7}{:>7}{:>6} {:8}", case.scheme, case.text.len(), case.rows(), call.word());
        for (number, places) in [(text, 1), (loaded, 1), (server, 1), (nothing, 1), (text / server, 2), (loaded / server, 2), (loaded / (server - nothing), 2)] {
            print!("{:>12}", crate::peers::shown(number, places));
        }
        println!();
    }
}

/// Measures beside the server whose socket stands in the folder, and prints a table.
pub fn measure(cases: &[Case], folder: &Path) -> Result<()> {
    let seconds = std::env::var("BENCH_SECONDS").ok().and_then(|word| word.parse().ok()).unwrap_or(SECONDS);
    let mut owner = Server::connect(folder, OWNER, OWNER)?;
    owner.run(&format!("CREATE ROLE {ASKER} LOGIN"))?;
    println!("Microseconds a call, 10th percentile, turns alternating. PostgreSQL over a socket, without an index, statements prepared, values in binary.");
    println!("Every value is looked at and none written. Labels of rows: row-level security. Labels of cells: the modified query. Names are compared by lower().");
    println!("A table without labels is granted to the role that asks if it is public; the server tests that at each query.");
    println!("nothing: SELECT 1, the way there and back. l/without: loaded over PostgreSQL without that. The rows were the same, byte by byte.");
    print!("\n{:7}{:>7}{:>6} {:8}", "scheme", "bytes", "rows", "call");
    println!("{:>12}{:>12}{:>12}{:>12}{:>12}{:>12}{:>12}", "text", "loaded", "PostgreSQL", "nothing", "text/Post", "loaded/Post", "l/without");
    for case in cases.iter().filter(|case| case.size == "60" && SCHEMES.contains(&case.scheme)) {
        measure_case(case, &mut Postgres::open(folder, &mut owner, case)?, seconds);
    }
    Ok(())
}
