//! Descriptions, and what bind, join and forget make of them.

use crate::groups::{all_below, positions, single, GroupSet, Mask};

/// What a bind knows of its term.
#[derive(Clone, Copy, Debug, Default, PartialEq, Eq)]
pub struct Term {
    pub bare: bool,
    pub holds: Mask,
    pub repeated: Mask,
}

/// A number of positions, their groups and their marks.
#[derive(Clone, Debug, PartialEq, Eq)]
pub struct Description {
    pub n: u8,
    pub groups: GroupSet,
    pub free: Mask,
    pub linear: Mask,
}

/// The sets of groups and the marks that the cases of a bind look at.
struct BindSides {
    x_groups: GroupSet,
    t_groups: GroupSet,
    shared: GroupSet,
    rest: GroupSet,
    x_free: bool,
    t_free: bool,
    x_linear: bool,
    t_linear: bool,
}

impl BindSides {
    /// The groups of the first case that fits.
    fn new_groups(&self) -> GroupSet {
        if self.x_free || self.t_free {
            return self.x_groups.paired(&self.t_groups);
        }
        // A side meets a linear other side, or any other side.
        let x_side = self.side(&self.x_groups, self.t_linear);
        let t_side = self.side(&self.t_groups, self.x_linear);
        x_side.paired(&t_side)
    }

    /// The set of case 2 against a linear other side, else the closure.
    fn side(&self, groups: &GroupSet, other_is_linear: bool) -> GroupSet {
        if other_is_linear {
            groups.together(&groups.paired(&self.shared.closure()))
        } else {
            groups.closure()
        }
    }

    /// The positions that lose the free mark.
    fn lose_free(&self) -> Mask {
        let (x, t) = (self.x_groups.held(), self.t_groups.held());
        match (self.x_free, self.t_free) {
            (true, true) => 0,
            (true, false) => x,
            (false, true) => t,
            (false, false) => x | t,
        }
    }

    /// The positions that lose the linear mark.
    fn lose_linear(&self) -> Mask {
        let (x, t) = (self.x_groups.held(), self.t_groups.held());
        match (self.x_linear, self.t_linear) {
            (true, true) => x & t,
            (true, false) => x,
            (false, true) => t,
            (false, false) => x | t,
        }
    }
}

impl Description {
    /// Each position alone in a group, free and linear.
    pub fn fresh(n: u8) -> Self {
        Description {
            n,
            groups: GroupSet::of((0..n).map(single)),
            free: all_below(n),
            linear: all_below(n),
        }
    }

    /// The positions that no group holds.
    pub fn ground(&self) -> Mask {
        all_below(self.n) & !self.groups.held()
    }

    /// Do the three rules hold?
    pub fn exists(&self) -> bool {
        let ground = self.ground();
        self.free & !self.linear == 0 && ground & !self.linear == 0 && self.free & ground == 0
    }

    fn term_is_free(&self, term: Term) -> bool {
        term.bare && term.holds & self.free != 0
    }

    fn term_is_linear(&self, term: Term) -> bool {
        let ground = self.ground();
        positions(term.holds & !ground).all(|p| {
            let lonely = positions(term.holds & !single(p)).all(|q| !self.groups.share(p, q));
            single(p) & self.linear & !term.repeated != 0 && lonely
        })
    }

    fn sides(&self, x: u8, term: Term) -> BindSides {
        let in_x = |g: Mask| g & single(x) != 0;
        let in_t = |g: Mask| g & term.holds != 0;
        BindSides {
            x_groups: self.groups.select(in_x),
            t_groups: self.groups.select(in_t),
            shared: self.groups.select(|g| in_x(g) && in_t(g)),
            rest: self.groups.select(|g| !in_x(g) && !in_t(g)),
            x_free: self.free & single(x) != 0,
            t_free: self.term_is_free(term),
            x_linear: self.linear & single(x) != 0,
            t_linear: self.term_is_linear(term),
        }
    }

    /// The description after position x is bound to the term.
    pub fn bind(&self, x: u8, term: Term) -> Description {
        let sides = self.sides(x, term);
        let mut after = Description {
            n: self.n,
            groups: sides.rest.together(&sides.new_groups()),
            free: self.free & !sides.lose_free(),
            linear: self.linear & !sides.lose_linear(),
        };
        after.linear |= after.free | after.ground();
        after
    }

    /// The groups of both, and the marks that both have.
    pub fn join(&self, other: &Description) -> Description {
        Description {
            n: self.n,
            groups: self.groups.together(&other.groups),
            free: self.free & other.free,
            linear: self.linear & other.linear,
        }
    }

    /// The positions of the mask become new again.
    pub fn forget(&self, mask: Mask) -> Description {
        let kept = self.groups.iter().map(|g| g & !mask);
        Description {
            n: self.n,
            groups: GroupSet::of(kept.chain(positions(mask).map(single))),
            free: self.free | mask,
            linear: self.linear | mask,
        }
    }
}

#[cfg(test)]
mod tests {
    use super::*;

    fn bare(position: u8) -> Term {
        Term {
            bare: true,
            holds: single(position),
            repeated: 0,
        }
    }

    #[test]
    fn sharing_makes_a_term_not_linear() {
        let after = Description::fresh(3).bind(0, bare(1));
        assert_eq!(after.groups, GroupSet::of([3, 4]));
        assert_eq!((after.free, after.linear), (7, 7));
        let term = Term {
            bare: false,
            holds: 3,
            repeated: 0,
        };
        assert!(!after.term_is_linear(term));
        assert!(Description::fresh(3).term_is_linear(term));
        assert!(after.term_is_linear(Term::default()));
    }

    #[test]
    fn ground_positions_are_linear_again() {
        let twice = Term {
            bare: false,
            holds: 2,
            repeated: 2,
        };
        let after = Description::fresh(2).bind(0, twice);
        assert_eq!((after.free, after.linear), (2, 2));
        let ground = after.bind(1, Term::default());
        assert_eq!((ground.ground(), ground.free, ground.linear), (3, 0, 3));
    }

    #[test]
    fn forget_makes_new() {
        let after = Description::fresh(2).bind(0, bare(1)).forget(1);
        assert_eq!(after, Description::fresh(2));
    }

    /// A small generator of numbers for the test below.
    fn next(seed: &mut u64) -> u64 {
        *seed = seed.wrapping_mul(6364136223846793005).wrapping_add(1);
        *seed >> 33
    }

    fn random_description(n: u8, seed: &mut u64) -> Description {
        let all = all_below(n);
        let groups = (0..next(seed) % 9).map(|_| next(seed) as Mask & all);
        let mut d = Description {
            n,
            groups: GroupSet::of(groups.collect::<Vec<_>>()),
            free: 0,
            linear: 0,
        };
        d.free = next(seed) as Mask & next(seed) as Mask & d.groups.held();
        d.linear = next(seed) as Mask & all | d.free | d.ground();
        d
    }

    #[test]
    fn a_core_stays_alike_under_bind_and_forget() {
        let mut seed = 7;
        for _ in 0..5000 {
            let n = 2 + (next(&mut seed) % 4) as u8;
            let whole = random_description(n, &mut seed);
            let mut core = whole.clone();
            core.groups = GroupSet::of(whole.groups.core());
            assert!(whole.exists() && core.exists());
            let holds = next(&mut seed) as Mask & all_below(n);
            let mut term = Term {
                bare: false,
                holds,
                repeated: next(&mut seed) as Mask & holds,
            };
            if next(&mut seed) % 3 == 0 {
                term = bare((next(&mut seed) % n as u64) as u8);
            }
            let x = (next(&mut seed) % n as u64) as u8;
            let (a, b) = (whole.bind(x, term), core.bind(x, term));
            assert!(a.exists() && (a.free, a.linear) == (b.free, b.linear));
            assert_eq!(a.groups.core(), b.groups.core());
            let (a, b) = (whole.forget(holds), core.forget(holds));
            assert!(a.exists());
            assert_eq!(a.groups.core(), b.groups.core());
        }
    }
}
