//! Descriptions: the bind rule, join and forget.

use crate::groups::{has, positions_of, single, Groups, Mask};

/// What a bind knows of a term.
#[derive(Clone, Copy, Debug, PartialEq, Eq)]
pub struct Term {
    pub bare: bool,
    pub held: Mask,
    pub repeated: Mask,
}

#[derive(Clone, PartialEq, Eq)]
pub struct Description {
    pub positions: usize,
    pub groups: Groups,
    pub free: Mask,
    pub linear: Mask,
}

impl Description {
    /// Each position alone, and all of them free and linear.
    pub fn new(positions: usize) -> Description {
        let all = single(positions) - 1;
        Description {
            positions,
            groups: (0..positions).map(single).collect(),
            free: all,
            linear: all,
        }
    }

    pub fn is_ground(&self, p: usize) -> bool {
        self.groups.iter().all(|g| !has(g, p))
    }

    pub fn share(&self, p: usize, q: usize) -> bool {
        self.groups.iter().any(|g| has(g, p) && has(g, q))
    }

    fn is_free_term(&self, term: &Term) -> bool {
        term.bare && term.held & self.free != 0
    }

    fn is_linear_term(&self, term: &Term) -> bool {
        positions_of(term.held).all(|p| {
            let once = has(self.linear, p) && !has(term.repeated, p);
            let apart = positions_of(term.held).all(|q| q == p || !self.share(p, q));
            self.is_ground(p) || (once && apart)
        })
    }

    /// What binding the position x to the term makes of the description.
    pub fn bind(&self, x: usize, term: &Term) -> Description {
        let x_groups = self.groups.only(|g| has(g, x));
        let t_groups = self.groups.only(|g| g & term.held != 0);
        let shared = self.groups.only(|g| has(g, x) && g & term.held != 0);
        let rest = self.groups.only(|g| !has(g, x) && g & term.held == 0);

        let (x_free, t_free) = (has(self.free, x), self.is_free_term(term));
        let (x_linear, t_linear) = (has(self.linear, x), self.is_linear_term(term));
        let made = match (x_free || t_free, x_linear, t_linear) {
            (true, _, _) => x_groups.paired(&t_groups),
            (false, true, true) => x_groups
                .extended(&shared)
                .paired(&t_groups.extended(&shared)),
            (false, true, false) => x_groups.closure().paired(&t_groups.extended(&shared)),
            (false, false, true) => x_groups.extended(&shared).paired(&t_groups.closure()),
            (false, false, false) => x_groups.closure().paired(&t_groups.closure()),
        };

        let (in_x, in_t) = (x_groups.positions(), t_groups.positions());
        let lost_free = match (x_free, t_free) {
            (true, true) => 0,
            (true, false) => in_x,
            (false, true) => in_t,
            (false, false) => in_x | in_t,
        };
        let lost_linear = match (x_linear, t_linear) {
            (true, true) => in_x & in_t,
            (true, false) => in_x,
            (false, true) => in_t,
            (false, false) => in_x | in_t,
        };
        let groups = rest.and(&made);
        let free = self.free & !lost_free;
        let ground = (single(self.positions) - 1) & !groups.positions();
        Description {
            positions: self.positions,
            free,
            linear: (self.linear & !lost_linear) | free | ground,
            groups,
        }
    }

    /// The groups of both, and the marks that both have.
    pub fn join(&self, free: Mask, linear: Mask, groups: &[Mask]) -> Description {
        Description {
            positions: self.positions,
            groups: self.groups.and(&groups.iter().copied().collect()),
            free: self.free & free,
            linear: self.linear & linear,
        }
    }

    /// The positions of the mask taken from every group, and each of them added alone, free and linear.
    pub fn forget(&self, mask: Mask) -> Description {
        let left = self.groups.iter().map(|g| g & !mask).filter(|g| *g != 0);
        Description {
            positions: self.positions,
            groups: left.chain(positions_of(mask).map(single)).collect(),
            free: self.free | mask,
            linear: self.linear | mask,
        }
    }
}

#[cfg(test)]
mod tests {
    use super::*;

    fn compound(args: &[usize]) -> Term {
        let mut term = Term {
            bare: false,
            held: 0,
            repeated: 0,
        };
        for p in args {
            term.repeated |= term.held & single(*p);
            term.held |= single(*p);
        }
        term
    }

    fn bare(p: usize) -> Term {
        Term {
            bare: true,
            ..compound(&[p])
        }
    }

    fn check(d: &Description, core: &[Mask], free: Mask, linear: Mask) {
        assert_eq!(
            (d.groups.core(), d.free, d.linear),
            (core.to_vec(), free, linear)
        );
    }

    #[test]
    fn the_worked_examples_hold() {
        let two = Description::new(2);
        check(&two, &[1, 2], 3, 3);
        let tied = two.bind(0, &bare(1));
        check(&tied, &[3], 3, 3);
        check(
            &Description::new(3).bind(0, &compound(&[1, 2])),
            &[3, 5],
            6,
            7,
        );
        check(&two.bind(0, &compound(&[1, 1])), &[3], 2, 2);
        check(&two.bind(0, &compound(&[])), &[2], 2, 3);
        check(&tied.bind(1, &compound(&[])), &[], 0, 3);
        let five = Description::new(5)
            .bind(0, &compound(&[1, 2, 3]))
            .bind(0, &compound(&[4, 4]));
        check(&five, &[19, 21, 23, 25, 27, 29], 0, 16);
        let four = Description::new(4)
            .bind(0, &compound(&[1, 2]))
            .bind(0, &compound(&[0, 3]));
        check(&four, &[3, 5, 7, 11, 13], 0, 8);
        check(&tied.join(3, 3, &[1, 2]), &[1, 2, 3], 3, 3);
        check(&tied.forget(1), &[1, 2], 3, 3);
    }

    #[test]
    fn two_records_that_share_one_place_stay_linear() {
        let seven = Description::new(7)
            .bind(0, &compound(&[1, 2, 6]))
            .bind(3, &compound(&[4, 6, 5]))
            .bind(0, &bare(3));
        check(&seven, &[27, 29, 43, 45, 73, 75, 77, 89, 105], 0, 54);
        assert_eq!(seven.groups.iter().count(), 13);
    }

    #[test]
    fn a_position_turned_ground_is_linear_again() {
        let repeated = Description::new(2).bind(0, &compound(&[1, 1]));
        check(&repeated.bind(0, &compound(&[])), &[], 0, 3);
    }
}
