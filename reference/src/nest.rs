//! 02, Q-11, "Labels that come down": what is open under a strong label and weak ones merged by document 000's figure 4.

use crate::purpose::{Label, Tree};

/// A set of purposes of one tree: whether each is in it, by its place.
type Purposes = Vec<bool>;

/// A label's two sets, or what two such come to when merged.
#[derive(Clone, Debug, PartialEq, Eq)]
pub struct Sets {
    allowed: Purposes,
    denied: Purposes,
}

/// The purposes of a tree for which something holds.
fn purposes(tree: &Tree, holds: impl Fn(usize) -> bool) -> Purposes {
    (0..tree.count()).map(holds).collect()
}

impl Sets {
    /// A label's sets: the allowed one with all descendants; 02: "Denied sets are closed both ways before merging".
    pub fn of_label(tree: &Tree, label: &Label) -> Sets {
        Sets {
            allowed: purposes(tree, |p| label.allowed.iter().any(|&a| tree.descends(p, a))),
            denied: purposes(tree, |p| label.denied.iter().any(|&d| tree.descends(p, d) || tree.descends(d, p))),
        }
    }

    /// 02: "absent is empty sets".
    pub fn absent(tree: &Tree) -> Sets {
        Sets { allowed: purposes(tree, |_| false), denied: purposes(tree, |_| false) }
    }

    /// 000, figure 4, lines 9 and 10, a lower label's sets merged over these; 02: "allowed sets unite, and a lower allowed set removes
    /// its descendants from the inherited denied set, before the lower denied set is added". Where either is empty this is the other,
    /// as the figure's first lines have it. What is merged isn't closed again.
    pub fn merged_under(&self, lower: &Sets) -> Sets {
        let both = |one: &Purposes, other: &Purposes, member: fn(bool, bool) -> bool| -> Purposes {
            one.iter().zip(other).map(|(&one, &other)| member(one, other)).collect()
        };
        let left = both(&self.denied, &lower.allowed, |inherited, allowed| inherited && !allowed);
        Sets {
            allowed: both(&self.allowed, &lower.allowed, |one, other| one || other),
            denied: both(&left, &lower.denied, |one, other| one || other),
        }
    }
}

/// 02: "A cell is closed if strongly denied; else open if strongly allowed; else closed if weakly denied; else open exactly if weakly
/// allowed." The weak sets are given from the top down.
pub fn open(strong: &Sets, weak: [&Sets; 3], purpose: usize) -> bool {
    let is_in = |set: &Purposes| set.get(purpose).is_some_and(|&member| member);
    let [table, row, cell] = weak;
    let weak = table.merged_under(row).merged_under(cell);
    if is_in(&strong.denied) {
        false
    } else if is_in(&strong.allowed) {
        true
    } else if is_in(&weak.denied) {
        false
    } else {
        is_in(&weak.allowed)
    }
}

#[cfg(test)]
mod tests {
    use super::*;

    /// 0 over 1 and 4; 1 over 2 and 3.
    fn tree() -> Tree {
        let mut tree = Tree::new();
        for parent in [None, Some(0), Some(1), Some(1), Some(0)] {
            tree.add(parent).unwrap();
        }
        tree
    }

    /// The members of a set.
    fn members(set: &Purposes) -> Vec<usize> {
        (0..set.len()).filter(|&place| set[place]).collect()
    }

    fn sets(allowed: &[usize], denied: &[usize]) -> Sets {
        Sets::of_label(&tree(), &Label { allowed: allowed.to_vec(), denied: denied.to_vec() })
    }

    #[test]
    fn closing() {
        // Allowed sets downwards, denied ones both ways.
        let closed = sets(&[1], &[1]);
        assert_eq!(members(&closed.allowed), [1, 2, 3]);
        assert_eq!(members(&closed.denied), [0, 1, 2, 3]);
        let closed = sets(&[2, 4], &[3, 4]);
        assert_eq!(members(&closed.allowed), [2, 4]);
        assert_eq!(members(&closed.denied), [0, 1, 3, 4]);
        assert_eq!(members(&sets(&[0], &[0]).denied), [0, 1, 2, 3, 4]);
        // Members outside the tree have no effect.
        assert_eq!(sets(&[9], &[5, 7]), Sets::absent(&tree()));
    }

    #[test]
    fn merging() {
        // What is allowed below comes off what was denied above, descendants too and ancestors not.
        let merged = sets(&[4], &[1]).merged_under(&sets(&[2], &[]));
        assert_eq!(members(&merged.allowed), [2, 4]);
        assert_eq!(members(&merged.denied), [0, 1, 3]);
        // "before the lower denied set is added": the lower label's own denial stays.
        let merged = sets(&[0], &[4]).merged_under(&sets(&[1], &[2]));
        assert_eq!(members(&merged.allowed), [0, 1, 2, 3, 4]);
        assert_eq!(members(&merged.denied), [0, 1, 2, 4]);
        // Not closed again: 0 and 1 stay denied for 2 above, and 2 isn't denied for them.
        let merged = sets(&[], &[2]).merged_under(&sets(&[2], &[]));
        assert_eq!(members(&merged.denied), [0, 1]);
        let merged = sets(&[], &[2]).merged_under(&sets(&[1], &[]));
        assert_eq!(members(&merged.denied), [0]);
    }

    #[test]
    fn merging_with_empty_sets() {
        // Figure 4's lines 1 to 4.
        let absent = Sets::absent(&tree());
        for some in [sets(&[1], &[4]), sets(&[0], &[2]), sets(&[], &[3]), sets(&[3], &[]), absent.clone()] {
            assert_eq!(absent.merged_under(&some), some);
            assert_eq!(some.merged_under(&absent), some);
        }
    }

    #[test]
    fn strong_over_weak() {
        let absent = Sets::absent(&tree());
        let opened = |strong: &Sets, weak: [&Sets; 3]| -> Vec<usize> { (0..6).filter(|&p| open(strong, weak, p)).collect() };
        let all = sets(&[0], &[]);
        let none = sets(&[], &[0]);
        // Nothing is open where no label allows it.
        assert_eq!(opened(&absent, [&absent, &absent, &absent]), [0; 0]);
        // An allowed set anywhere opens what no set denies.
        for place in 0..3 {
            let mut weak = [&absent; 3];
            weak[place] = &all;
            assert_eq!(opened(&absent, weak), [0, 1, 2, 3, 4]);
        }
        // Strongly denied is closed whatever the weak labels say; strongly allowed is open whatever they say.
        assert_eq!(opened(&sets(&[], &[1]), [&all, &all, &all]), [4]);
        assert_eq!(opened(&sets(&[1], &[]), [&none, &none, &none]), [1, 2, 3]);
        assert_eq!(opened(&sets(&[0], &[4]), [&none, &absent, &none]), [1, 2, 3]);
        // The lowest label has the last word among weak ones.
        assert_eq!(opened(&absent, [&none, &all, &absent]), [0, 1, 2, 3, 4]);
        assert_eq!(opened(&absent, [&all, &none, &absent]), [0; 0]);
        assert_eq!(opened(&absent, [&none, &none, &all]), [0, 1, 2, 3, 4]);
        assert_eq!(opened(&absent, [&all, &all, &none]), [0; 0]);
    }
}
