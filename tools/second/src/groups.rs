//! Masks, and sets of groups as a table of flags.

/// A set of positions: position i adds 2 to the power i.
pub type Mask = u16;

/// The largest number of positions.
pub const MAX_POSITIONS: u8 = 12;

/// One flag for each mask of twelve positions.
const TABLE_SIZE: usize = 1 << MAX_POSITIONS;

/// The mask of one position.
pub fn single(position: u8) -> Mask {
    1 << position
}

/// The mask of the positions 0 to n - 1.
pub fn all_below(n: u8) -> Mask {
    single(n) - 1
}

/// The positions of a mask, ascending.
pub fn positions(mask: Mask) -> impl Iterator<Item = u8> {
    (0..16).filter(move |&p| mask & single(p) != 0)
}

/// A set of groups. The empty mask is never in it.
#[derive(Clone, Debug, PartialEq, Eq)]
pub struct GroupSet {
    flags: Vec<bool>,
}

impl GroupSet {
    pub fn new() -> Self {
        GroupSet {
            flags: vec![false; TABLE_SIZE],
        }
    }

    /// The set of the groups given, in any order.
    pub fn of(groups: impl IntoIterator<Item = Mask>) -> Self {
        let mut set = GroupSet::new();
        for group in groups {
            set.insert(group);
        }
        set
    }

    /// Adds a group; the empty mask is no group and is dropped.
    pub fn insert(&mut self, group: Mask) {
        if group != 0 {
            self.flags[group as usize] = true;
        }
    }

    pub fn contains(&self, group: Mask) -> bool {
        self.flags[group as usize]
    }

    /// The groups, ascending.
    pub fn iter(&self) -> impl Iterator<Item = Mask> + '_ {
        (0..TABLE_SIZE as Mask).filter(move |&g| self.contains(g))
    }

    /// The groups for which a test holds.
    pub fn select(&self, test: impl Fn(Mask) -> bool) -> GroupSet {
        GroupSet::of(self.iter().filter(|&g| test(g)))
    }

    /// The groups of both sets.
    pub fn together(&self, other: &GroupSet) -> GroupSet {
        GroupSet::of(self.iter().chain(other.iter()))
    }

    /// Every union of one group from each set.
    pub fn paired(&self, other: &GroupSet) -> GroupSet {
        let others: Vec<Mask> = other.iter().collect();
        let mut result = GroupSet::new();
        for a in self.iter() {
            for &b in &others {
                result.insert(a | b);
            }
        }
        result
    }

    /// Every union of one or more groups, adding one group at a time.
    pub fn closure(&self) -> GroupSet {
        let mut closed = GroupSet::new();
        for group in self.iter() {
            // What is there is closed already, so a member adds nothing.
            if closed.contains(group) {
                continue;
            }
            let before: Vec<Mask> = closed.iter().collect();
            closed.insert(group);
            for union in before {
                closed.insert(union | group);
            }
        }
        closed
    }

    /// All positions that some group holds.
    pub fn held(&self) -> Mask {
        self.iter().fold(0, |held, g| held | g)
    }

    /// Does one group hold both positions?
    pub fn share(&self, a: u8, b: u8) -> bool {
        let both = single(a) | single(b);
        self.iter().any(|g| g & both == both)
    }

    /// The core groups, ascending.
    pub fn core(&self) -> Vec<Mask> {
        self.iter().filter(|&g| self.is_core_group(g)).collect()
    }

    /// Do the groups strictly inside leave a pair of positions uncovered?
    fn is_core_group(&self, group: Mask) -> bool {
        // covered[p]: the positions that share with p strictly inside.
        let mut covered = [0 as Mask; MAX_POSITIONS as usize];
        let mut inner = (group - 1) & group;
        while inner != 0 {
            if self.contains(inner) {
                for p in positions(inner) {
                    covered[p as usize] |= inner;
                }
            }
            inner = (inner - 1) & group;
        }
        positions(group).any(|p| covered[p as usize] != group)
    }
}

#[cfg(test)]
mod tests {
    use super::*;

    #[test]
    fn cores_of_the_page() {
        assert_eq!(GroupSet::of([3, 5, 6, 7]).core(), [3, 5, 6]);
        assert_eq!(GroupSet::of([3, 6, 7]).core(), [3, 6, 7]);
        assert_eq!(GroupSet::of([1, 2, 3]).core(), [1, 2, 3]);
    }

    #[test]
    fn closure_is_every_union() {
        let closed: Vec<Mask> = GroupSet::of([1, 2, 4]).closure().iter().collect();
        assert_eq!(closed, [1, 2, 3, 4, 5, 6, 7]);
        assert_eq!(GroupSet::new().closure(), GroupSet::new());
    }

    #[test]
    fn pairing_with_nothing_is_nothing() {
        let set = GroupSet::of([1, 2]);
        assert_eq!(set.paired(&GroupSet::new()), GroupSet::new());
        assert_eq!(set.paired(&GroupSet::of([4])), GroupSet::of([5, 6]));
    }
}
