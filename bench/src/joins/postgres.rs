//! A join in PostgreSQL, by its hash join; labels of rows are tested by row-level security.

use crate::joins::cases::Case;
use crate::modified::{Compared, Document, Held};
use crate::postgres::server::{fields, number, Server, Statement};
use crate::postgres::{fill, ASKER, OWNER};
use crate::writing::Writing;
use std::io::Result;
use std::path::Path;

pub struct Postgres {
    asker: Server,
    pairs: Statement,
    nothing: Statement,
    holds_numbers: Vec<bool>,
}

impl Postgres {
    /// Each join has a schema of its own.
    pub fn open(folder: &Path, owner: &mut Server, case: &Case, place: usize) -> Result<Postgres> {
        let document = Document::read(&case.text, Held::Masks, Compared::Lowered);
        let joined = document.modify_join(&case.query);
        let schema = format!("join_{place}");
        owner.run(&format!("CREATE SCHEMA {schema}; GRANT USAGE ON SCHEMA {schema} TO {ASKER}; SET search_path TO {schema}"))?;
        for table in document.tables.iter().filter(|table| joined.tables.contains(&table.name)) {
            fill(owner, table)?;
        }
        for (table, opened) in joined.tables.iter().zip(&joined.opened) {
            owner.run(&format!("GRANT SELECT ON {table} TO {ASKER}; ALTER TABLE {table} ENABLE ROW LEVEL SECURITY"))?;
            owner.run(&format!("CREATE POLICY purpose ON {table} FOR SELECT TO {ASKER} USING ({opened})"))?;
        }
        owner.run("VACUUM ANALYZE")?;
        let mut asker = Server::connect(folder, ASKER, OWNER)?;
        asker.run(&format!("SET search_path TO {schema}; SET enable_nestloop = off; SET enable_mergejoin = off"))?;
        let text = joined.unlabelled();
        let mut plan = Vec::new();
        let explained = asker.prepare("plan", &format!("EXPLAIN {text}"))?;
        asker.ask(&explained, |row| plan.extend_from_slice(row));
        assert!(String::from_utf8_lossy(&plan).contains("Hash Join"), "{}: PostgreSQL joins by a hash", case.name);
        let pairs = asker.prepare("pairs", &text)?;
        let nothing = asker.prepare("nothing", "SELECT 1")?;
        Ok(Postgres { asker, pairs, nothing, holds_numbers: joined.holds_numbers })
    }

    /// Looks at every value of every pair, and writes none. Sums them.
    pub fn bare(&mut self) -> u64 {
        let (mut sum, holds_numbers) = (0, &self.holds_numbers);
        self.asker.ask(&self.pairs, |row| {
            for (field, &holds_numbers) in fields(row).zip(holds_numbers) {
                sum += if holds_numbers { number(field) as u64 } else { field.len() as u64 };
            }
        });
        sum
    }

    /// The way to the server and back.
    pub fn nothing(&mut self) {
        self.asker.ask(&self.nothing, |_| {});
    }

    /// The lines of the pairs; a hash join gives them in another order.
    pub fn lines(&mut self, room: usize) -> Vec<u8> {
        let (mut out, holds_numbers) = (vec![0; room], &self.holds_numbers);
        let mut writing = Writing::new(&mut out);
        self.asker.ask(&self.pairs, |row| {
            let fields: Vec<&[u8]> = fields(row).collect();
            writing.row(holds_numbers, |place| number(fields[place]), |place| fields[place]);
        });
        let len = writing.len();
        out.truncate(len);
        out
    }
}
