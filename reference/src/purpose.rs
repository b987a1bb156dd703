//! 01, "Purpose tree and labels": a library that knows no texts and no tables.

/// 01: "a tree of at most 64 purposes"; 02, Q-5: "The limit becomes 256".
pub const LIMIT: usize = 256;

/// 01: "each with its parent; only the first has none". Purposes are counted from 0.
#[derive(Clone, Debug, Default, PartialEq, Eq)]
pub struct Tree {
    parents: Vec<Option<usize>>,
}

/// A purpose that the tree doesn't take.
#[derive(Clone, Copy, Debug, PartialEq, Eq)]
pub struct NotTaken;

impl Tree {
    /// The tree of no purposes.
    pub fn new() -> Tree {
        Tree { parents: Vec::new() }
    }

    /// The number of purposes.
    pub fn count(&self) -> usize {
        self.parents.len()
    }

    /// 01: "a parent outside the tree or a purpose beyond the limit is refused with the tree unchanged".
    pub fn add(&mut self, parent: Option<usize>) -> Result<usize, NotTaken> {
        let place = self.count();
        if place >= LIMIT {
            return Err(NotTaken);
        }
        match parent {
            None if place > 0 => return Err(NotTaken),
            Some(above) if above >= place => return Err(NotTaken),
            _ => {}
        }
        self.parents.push(parent);
        Ok(place)
    }

    /// 01: "Ancestors and descendants include the purpose itself"; nothing outside the tree descends.
    pub fn descends(&self, low: usize, high: usize) -> bool {
        let mut here = Some(low);
        while let Some(place) = here {
            if place >= self.count() {
                return false;
            }
            if place == high {
                return true;
            }
            // A parent is always smaller than its child (`add`), so the walk ends.
            here = self.parents[place];
        }
        false
    }
}

/// 01: "A label has an allowed and a denied set, each possibly empty."
#[derive(Clone, Debug, Default, PartialEq, Eq)]
pub struct Label {
    pub allowed: Vec<usize>,
    pub denied: Vec<usize>,
}

/// 01: "P is open under it exactly when P descends from an allowed purpose, and is neither ancestor nor descendant of a denied one".
pub fn open(tree: &Tree, label: &Label, p: usize) -> bool {
    let allowed = label.allowed.iter().any(|&a| tree.descends(p, a));
    let denied = label.denied.iter().any(|&d| tree.descends(p, d) || tree.descends(d, p));
    allowed && !denied
}
