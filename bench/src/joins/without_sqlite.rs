//! Where libsqlite3-dev is missing: the same names, and no SQLite.

use crate::joins::cases::Case;

pub enum Sqlite {}

impl Sqlite {
    pub fn open(_: &Case) -> Option<Sqlite> {
        None
    }

    pub fn bare(&self) -> u64 {
        match *self {}
    }

    pub fn answer(&self, _: &Case, _: usize) -> Vec<u8> {
        match *self {}
    }
}
