//! The keeper: one description, its tests and its capacity.

use crate::description::{Description, Term};
use crate::groups::{all_below, single, GroupSet, Mask, MAX_POSITIONS};
use crate::refusal::Refusal;

/// A question about one position or two.
#[derive(Clone, Copy, Debug, PartialEq, Eq)]
pub enum Question {
    Ground(u8),
    Free(u8),
    Linear(u8),
    Pair(u8, u8),
}

/// Holds the description of a run, once it is open.
pub struct Keeper {
    capacity: usize,
    description: Option<Description>,
}

impl Keeper {
    pub fn new(capacity: usize) -> Self {
        Keeper {
            capacity,
            description: None,
        }
    }

    fn opened(&self) -> Result<&Description, Refusal> {
        self.description.as_ref().ok_or(Refusal::Order)
    }

    /// Takes the result of a call, unless its core is too large.
    fn take(&mut self, result: Description) -> Result<(), Refusal> {
        if result.groups.core().len() > self.capacity {
            return Err(Refusal::Capacity);
        }
        self.description = Some(result);
        Ok(())
    }

    pub fn open(&mut self, n: u8) -> Result<(), Refusal> {
        if self.description.is_some() {
            return Err(Refusal::Order);
        }
        if n == 0 || n > MAX_POSITIONS {
            return Err(Refusal::Count);
        }
        self.take(Description::fresh(n))
    }

    /// A term from a sheet is always one, so refusal 10 has no test here.
    pub fn bind(&mut self, x: u8, term: Term) -> Result<(), Refusal> {
        let now = self.opened()?;
        if x >= now.n || (term.holds | term.repeated) & !all_below(now.n) != 0 {
            return Err(Refusal::Position);
        }
        if term.bare && term.holds == single(x) {
            return Err(Refusal::Itself);
        }
        let result = now.bind(x, term);
        self.take(result)
    }

    pub fn join(&mut self, free: Mask, linear: Mask, list: &[Mask]) -> Result<(), Refusal> {
        let now = self.opened()?;
        let outside = !all_below(now.n);
        let ascending = list.windows(2).all(|w| w[0] < w[1]);
        if !ascending || list.iter().any(|&g| g == 0 || g & outside != 0) {
            return Err(Refusal::Groups);
        }
        let other = Description {
            n: now.n,
            groups: GroupSet::of(list.iter().copied()),
            free,
            linear,
        };
        if (free | linear) & outside != 0 || !other.exists() {
            return Err(Refusal::Marks);
        }
        let result = now.join(&other);
        self.take(result)
    }

    pub fn forget(&mut self, mask: Mask) -> Result<(), Refusal> {
        let now = self.opened()?;
        if mask & !all_below(now.n) != 0 {
            return Err(Refusal::Position);
        }
        let result = now.forget(mask);
        self.take(result)
    }

    pub fn ask(&self, question: Question) -> Result<bool, Refusal> {
        let now = self.opened()?;
        let (a, b) = match question {
            Question::Ground(p) | Question::Free(p) | Question::Linear(p) => (p, p),
            Question::Pair(p, q) => (p, q),
        };
        if a >= now.n || b >= now.n {
            return Err(Refusal::Position);
        }
        Ok(match question {
            Question::Ground(p) => now.ground() & single(p) != 0,
            Question::Free(p) => now.free & single(p) != 0,
            Question::Linear(p) => now.linear & single(p) != 0,
            Question::Pair(p, q) => now.groups.share(p, q),
        })
    }
}

#[cfg(test)]
mod tests {
    use super::*;

    #[test]
    fn refused_calls() {
        let mut keeper = Keeper::new(2);
        assert_eq!(keeper.forget(0), Err(Refusal::Order));
        assert_eq!(keeper.open(0), Err(Refusal::Count));
        assert_eq!(keeper.open(13), Err(Refusal::Count));
        assert_eq!(keeper.open(3), Err(Refusal::Capacity));
        assert_eq!(keeper.open(2), Ok(()));
        assert_eq!(keeper.join(0, 3, &[2, 1]), Err(Refusal::Groups));
        assert_eq!(keeper.join(0, 1, &[1]), Err(Refusal::Marks));
        assert_eq!(keeper.join(0, 3, &[3]), Err(Refusal::Capacity));
        assert_eq!(keeper.ask(Question::Free(0)), Ok(true));
        assert_eq!(keeper.ask(Question::Pair(0, 2)), Err(Refusal::Position));
    }
}
