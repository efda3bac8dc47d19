//! Sets of groups, and the words in which the bind rule is said.

/// A set of positions: position i adds 2 to the power i.
pub type Mask = u16;

/// No description has more positions.
pub const MOST_POSITIONS: usize = 12;

/// One more than the largest mask.
const MASKS: usize = 1 << MOST_POSITIONS;

/// A set of groups, as one flag for each mask.
#[derive(Clone, PartialEq, Eq)]
pub struct Groups {
    flags: Vec<bool>,
}

impl Groups {
    pub fn none() -> Groups {
        Groups {
            flags: vec![false; MASKS],
        }
    }

    pub fn add(&mut self, group: Mask) {
        self.flags[usize::from(group)] = true;
    }

    /// The groups, ascending.
    pub fn iter(&self) -> impl Iterator<Item = Mask> + '_ {
        self.flags
            .iter()
            .enumerate()
            .filter(|(_, held)| **held)
            .map(|(group, _)| group as Mask)
    }

    /// The groups of which a test holds.
    pub fn only(&self, test: impl Fn(Mask) -> bool) -> Groups {
        self.iter().filter(|g| test(*g)).collect()
    }

    pub fn and(&self, other: &Groups) -> Groups {
        self.iter().chain(other.iter()).collect()
    }

    /// Every union of one group from each.
    pub fn paired(&self, other: &Groups) -> Groups {
        let mut unions = Groups::none();
        for g in self.iter() {
            for h in other.iter() {
                unions.add(g | h);
            }
        }
        unions
    }

    /// Every union of one or more groups.
    pub fn closure(&self) -> Groups {
        let mut unions = Groups::none();
        for g in self.iter() {
            for u in unions.clone().iter() {
                unions.add(u | g);
            }
            unions.add(g);
        }
        unions
    }

    /// These groups, together with these paired with the closure of `shared`.
    pub fn extended(&self, shared: &Groups) -> Groups {
        self.and(&self.paired(&shared.closure()))
    }

    /// All positions that some group holds.
    pub fn positions(&self) -> Mask {
        self.iter().fold(0, |all, g| all | g)
    }

    /// A core group is one of whose pairs some is left uncovered by the groups strictly inside it.
    pub fn core(&self) -> Vec<Mask> {
        self.iter().filter(|g| self.is_core(*g)).collect()
    }

    fn is_core(&self, group: Mask) -> bool {
        // with[p] holds every position that a group strictly inside shows together with p
        let mut with = [0; MOST_POSITIONS];
        let mut inside = group;
        while inside != 0 {
            inside = (inside - 1) & group;
            if self.flags[usize::from(inside)] {
                positions_of(inside).for_each(|p| with[p] |= inside);
            }
        }
        positions_of(group).any(|p| with[p] != group)
    }
}

impl FromIterator<Mask> for Groups {
    fn from_iter<I: IntoIterator<Item = Mask>>(groups: I) -> Groups {
        let mut set = Groups::none();
        groups.into_iter().for_each(|g| set.add(g));
        set
    }
}

/// The mask of one position.
pub fn single(position: usize) -> Mask {
    1 << position
}

pub fn has(mask: Mask, position: usize) -> bool {
    mask & single(position) != 0
}

/// The positions of a mask, ascending.
pub fn positions_of(mask: Mask) -> impl Iterator<Item = usize> {
    (0..16).filter(move |p| has(mask, *p))
}

#[cfg(test)]
mod tests {
    use super::*;

    fn set(groups: &[Mask]) -> Groups {
        groups.iter().copied().collect()
    }

    #[test]
    fn a_group_is_dropped_only_where_smaller_ones_cover_all_its_pairs() {
        assert_eq!(set(&[3, 5, 6, 7]).core(), [3, 5, 6]);
        assert_eq!(set(&[3, 6, 7]).core(), [3, 6, 7]);
    }

    #[test]
    fn a_closure_has_every_union() {
        assert_eq!(set(&[1, 2, 4]).closure().iter().count(), 7);
    }
}
