//! A keeper: a description that calls change, with a capacity for core groups.

use crate::description::{Description, Term};
use crate::groups::{has, single, Mask, MOST_POSITIONS};

/// A keeper refuses by the number of the refusal.
pub type Refusal = u8;

pub struct Keeper {
    told: Option<Description>,
    capacity: usize,
}

#[derive(Clone, Copy, Debug, PartialEq, Eq)]
pub enum Question {
    Ground(usize),
    Free(usize),
    Linear(usize),
    Pair(usize, usize),
}

impl Keeper {
    pub fn new(capacity: usize) -> Keeper {
        Keeper {
            told: None,
            capacity,
        }
    }

    pub fn open(&mut self, n: usize) -> Result<(), Refusal> {
        if self.told.is_some() {
            return Err(4);
        }
        if n == 0 || n > MOST_POSITIONS {
            return Err(5);
        }
        self.keep(Description::new(n))
    }

    pub fn bind(&mut self, x: usize, term: &Term) -> Result<(), Refusal> {
        let told = self.told()?;
        if x >= told.positions || reaches(term.held, told.positions) {
            return Err(6);
        }
        if term.bare && term.held == single(x) {
            return Err(7);
        }
        let result = told.bind(x, term);
        self.keep(result)
    }

    pub fn join(&mut self, free: Mask, linear: Mask, groups: &[Mask]) -> Result<(), Refusal> {
        let told = self.told()?;
        let ascending = groups.windows(2).all(|w| w[0] < w[1]);
        if !ascending
            || groups
                .iter()
                .any(|g| *g == 0 || reaches(*g, told.positions))
        {
            return Err(9);
        }
        if !lawful_marks(told.positions, free, linear, groups) {
            return Err(10);
        }
        let result = told.join(free, linear, groups);
        self.keep(result)
    }

    pub fn forget(&mut self, mask: Mask) -> Result<(), Refusal> {
        let told = self.told()?;
        if reaches(mask, told.positions) {
            return Err(6);
        }
        let result = told.forget(mask);
        self.keep(result)
    }

    pub fn ask(&self, question: Question) -> Result<bool, Refusal> {
        let told = self.told()?;
        let (p, q) = match question {
            Question::Ground(p) | Question::Free(p) | Question::Linear(p) => (p, p),
            Question::Pair(p, q) => (p, q),
        };
        if p >= told.positions || q >= told.positions {
            return Err(6);
        }
        Ok(match question {
            Question::Ground(p) => told.is_ground(p),
            Question::Free(p) => has(told.free, p),
            Question::Linear(p) => has(told.linear, p),
            Question::Pair(p, q) => told.share(p, q),
        })
    }

    fn told(&self) -> Result<&Description, Refusal> {
        self.told.as_ref().ok_or(4)
    }

    fn keep(&mut self, result: Description) -> Result<(), Refusal> {
        if result.groups.core().len() > self.capacity {
            return Err(12);
        }
        self.told = Some(result);
        Ok(())
    }
}

fn reaches(mask: Mask, positions: usize) -> bool {
    mask >= single(positions)
}

/// The masks and groups of a join are those of a description: free within linear, ground within linear,
/// free never ground.
fn lawful_marks(positions: usize, free: Mask, linear: Mask, groups: &[Mask]) -> bool {
    if reaches(free, positions) || reaches(linear, positions) {
        return false;
    }
    let held = groups.iter().fold(0, |all, g| all | g);
    let ground = (single(positions) - 1) & !held;
    free & !linear == 0 && ground & !linear == 0 && free & ground == 0
}
