//! Where libsqlite3-dev is missing: the same names, and no SQLite.

use crate::documents::Case;
use crate::Call;

pub enum Sqlite {}

pub fn version() -> Option<String> {
    None
}

impl Sqlite {
    pub fn open(_: &Case) -> Option<Sqlite> {
        None
    }

    pub fn load(&self) {
        match *self {}
    }

    pub fn has_labels(&self, _: Call) -> bool {
        match *self {}
    }

    pub fn bare(&self, _: Call) -> u64 {
        match *self {}
    }

    pub fn labels_first(&self, _: Call) -> Option<u64> {
        match *self {}
    }

    pub fn numbered(&self, _: Call) -> Option<u64> {
        match *self {}
    }

    pub fn counted(&self, _: Call, _: &mut [u8]) -> usize {
        match *self {}
    }

    pub fn answers(&self, _: Call) -> Vec<Vec<u8>> {
        match *self {}
    }
}
