//! A copy of the reference's `nest`, with blunders 79 to 96, 114, 116 and 117.

use crate::on;
use crate::purpose::{Label, Tree};

/// A set of purposes of one tree: whether each is in it, by its place.
type Purposes = Vec<bool>;

/// A label's two sets, or what two such come to when merged.
#[derive(Clone, Debug, PartialEq, Eq)]
pub struct Sets {
    allowed: Purposes,
    denied: Purposes,
    /// Of a label alone: the allowed purposes without their descendants, the denied ones with descendants and without ancestors, and
    /// the denied ones by themselves.
    members: Purposes,
    downwards: Purposes,
    unclosed: Purposes,
}

/// The purposes of a tree for which something holds.
fn purposes(tree: &Tree, holds: impl Fn(usize) -> bool) -> Purposes {
    (0..tree.count()).map(holds).collect()
}

/// A set from two, purpose by purpose.
fn both(one: &Purposes, other: &Purposes, member: fn(bool, bool) -> bool) -> Purposes {
    one.iter().zip(other).map(|(&one, &other)| member(one, other)).collect()
}

fn united(one: &Purposes, other: &Purposes) -> Purposes {
    both(one, other, |one, other| one || other)
}

fn without(one: &Purposes, other: &Purposes) -> Purposes {
    both(one, other, |one, other| one && !other)
}

impl Sets {
    /// A label's sets: the allowed one with all descendants; 02: "Denied sets are closed both ways before merging".
    pub fn of_label(tree: &Tree, label: &Label) -> Sets {
        Sets {
            allowed: purposes(tree, |p| !(on(116) && p >= 64) && label.allowed.iter().any(|&a| tree.descends(p, a))),
            denied: purposes(tree, |p| !(on(117) && p >= 192) && label.denied.iter().any(|&d| tree.descends(p, d) || tree.descends(d, p))),
            members: purposes(tree, |p| label.allowed.contains(&p)),
            downwards: purposes(tree, |p| label.denied.iter().any(|&d| tree.descends(p, d))),
            unclosed: purposes(tree, |p| label.denied.contains(&p)),
        }
    }

    /// 02: "absent is empty sets".
    pub fn absent(tree: &Tree) -> Sets {
        let empty = purposes(tree, |_| false);
        Sets { allowed: empty.clone(), denied: empty.clone(), members: empty.clone(), downwards: empty.clone(), unclosed: empty }
    }

    /// Blunders 91 and 93: a weak label's denied set closed otherwise.
    fn weak_denied(&self) -> &Purposes {
        match () {
            () if on(91) => &self.downwards,
            () if on(93) => &self.unclosed,
            () => &self.denied,
        }
    }

    /// 000, figure 4, lines 9 and 10, a lower label's sets merged over these.
    fn merged_under(&self, tree: &Tree, lower: &Sets) -> Sets {
        let taken = if on(82) { &lower.members } else { &lower.allowed };
        let inherited = if on(81) { self.denied.clone() } else { without(&self.denied, taken) };
        let own = lower.weak_denied();
        let mut denied = match () {
            () if on(80) => without(&united(&self.denied, own), taken),
            () if on(83) && own.contains(&true) => own.clone(),
            () => united(&inherited, own),
        };
        if on(79) {
            let kept = denied.clone();
            denied = purposes(tree, |p| (0..kept.len()).any(|d| kept[d] && (tree.descends(p, d) || tree.descends(d, p))));
        }
        let allowed = if on(84) && lower.allowed.contains(&true) { lower.allowed.clone() } else { united(&self.allowed, &lower.allowed) };
        Sets { allowed, denied, ..Sets::absent(tree) }
    }
}

/// 02: "A cell is closed if strongly denied; else open if strongly allowed; else closed if weakly denied; else open exactly if weakly
/// allowed." The weak sets are given from the top down.
pub fn open(tree: &Tree, strong: &Sets, weak: [&Sets; 3], purpose: usize) -> bool {
    let is_in = |set: &Purposes| set.get(purpose).is_some_and(|&member| member);
    let [table, row, cell] = weak;
    let order = match () {
        () if on(85) => vec![cell, row, table],
        () if on(86) => vec![table, cell, row],
        () if on(94) => vec![cell],
        () if on(95) => vec![row, cell],
        () if on(96) => vec![table, cell],
        () => vec![table, row, cell],
    };
    let weak = order.into_iter().fold(Sets::absent(tree), |above, lower| above.merged_under(tree, lower));
    let denied = if on(92) { &strong.downwards } else { &strong.denied };
    let taken = on(114) && [row, cell].iter().any(|lower| is_in(&lower.allowed));
    let strongly_denied = is_in(denied) && !on(89) && !on(94) && !taken;
    let strongly_allowed = is_in(&strong.allowed) && !on(88) && !on(94);
    if on(87) && (is_in(&weak.denied) || is_in(&weak.allowed)) {
        return !is_in(&weak.denied);
    }
    if on(90) && strongly_allowed {
        return true;
    }
    if strongly_denied {
        false
    } else if strongly_allowed {
        true
    } else if is_in(&weak.denied) {
        false
    } else {
        is_in(&weak.allowed)
    }
}
