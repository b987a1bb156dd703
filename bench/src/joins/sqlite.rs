//! A join in SQLite, with an index on the key of the second table.

use crate::joins::cases::Case;
use crate::modified::{Compared, Document, Held};
use crate::sqlite::{Database, Statement};
use crate::writing::Writing;

pub struct Sqlite {
    pairs: Statement,
    /// How many rows of each table are withheld.
    withheld: [Statement; 2],
    holds_numbers: Vec<bool>,
    _database: Database,
}

impl Sqlite {
    pub fn open(case: &Case) -> Option<Sqlite> {
        let document = Document::read(&case.text, Held::Masks, Compared::Collated);
        let joined = document.modify_join(&case.query);
        let database = Database::load(&document);
        database.run(&format!("CREATE INDEX by_key ON {} ({})", joined.tables[1], joined.keys[1]));
        Some(Sqlite {
            pairs: database.prepare(&joined.pairs()),
            withheld: joined.withheld().map(|text| database.prepare(&text)),
            holds_numbers: joined.holds_numbers,
            _database: database,
        })
    }

    /// Looks at every value of every pair, and writes none. Sums them.
    pub fn bare(&self) -> u64 {
        let mut sum = 0;
        while self.pairs.step() {
            for (place, &holds_numbers) in self.holds_numbers.iter().enumerate() {
                sum += if holds_numbers { self.pairs.number(place) as u64 } else { self.pairs.name(place).len() as u64 };
            }
        }
        sum
    }

    /// The whole answer.
    pub fn answer(&self, case: &Case, room: usize) -> Vec<u8> {
        let mut out = vec![0; room];
        let mut writing = Writing::new(&mut out);
        let mut passed = 0;
        while self.pairs.step() {
            writing.row(&self.holds_numbers, |place| self.pairs.number(place), |place| self.pairs.name(place));
            passed += 1;
        }
        let [first, second] = [&self.withheld[0], &self.withheld[1]].map(|withheld| case.rows as u64 - withheld.only());
        let all = (case.rows * case.rows) as u64;
        writing.end([passed, all - first * second, first * second - passed]);
        let len = writing.len();
        out.truncate(len);
        out
    }
}
