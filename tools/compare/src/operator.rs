//! Examples of the operator that were worked by hand, with the description that each comes to.

use crate::sheet::{Sheet, Term};
use crate::tally::Tally;
use std::io;

/// Steps, and what they leave: groups, free mask, linear mask.
pub struct Example {
    pub name: &'static str,
    positions: u8,
    steps: Sheet,
    groups: &'static [u16],
    free: u16,
    linear: u16,
}

/// A description that is given: every position is made ground, then the description is joined. A free
/// position that stands alone in one of the groups is left as it is, since a join keeps common marks only.
fn given(positions: u8, groups: &[u16], free: u16, linear: u16) -> Sheet {
    Sheet::opened(positions)
        .only_in(positions, free)
        .join(free, linear, groups)
}

/// An example by its steps, with the groups, the free mask and the linear mask that they leave.
fn example(
    name: &'static str,
    positions: u8,
    steps: Sheet,
    groups: &'static [u16],
    (free, linear): (u16, u16),
) -> Example {
    Example {
        name,
        positions,
        steps,
        groups,
        free,
        linear,
    }
}

pub fn examples() -> Vec<Example> {
    let mut all = records();
    all.extend(links());
    all.extend(parts());
    all
}

/// Two records, 0 and 3, that have part 6 in common.
fn records() -> Vec<Example> {
    let two = Sheet::opened(7)
        .bind(0, &Term::over(&[1, 2, 6]))
        .bind(3, &Term::over(&[4, 6, 5]));
    let one = two.clone().bind(0, &Term::Position(3));
    let united = &[27, 29, 43, 45, 73, 75, 77, 89, 91, 93, 105, 107, 109];
    vec![
        example(
            "two records with a part in common",
            7,
            two,
            &[3, 5, 24, 40, 73],
            (118, 127),
        ),
        example("the two records made one", 7, one, united, (0, 54)),
    ]
}

/// Two positions with three links each.
fn links() -> Vec<Example> {
    let two = given(5, &[5, 6, 9, 10, 17, 18], 0, 31);
    let one = two.clone().bind(0, &Term::Position(1));
    vec![
        example(
            "two positions with links",
            5,
            two,
            &[5, 6, 9, 10, 17, 18],
            (0, 31),
        ),
        example(
            "the two positions made one",
            5,
            one,
            &[7, 11, 15, 19, 23, 27],
            (0, 3),
        ),
    ]
}

/// Parts that are forgotten, and terms that are linear or not since their positions share or occur twice.
fn parts() -> Vec<Example> {
    let forgotten = given(3, &[2, 3, 5], 0, 3).forget(6);
    let shared = given(5, &[1, 16, 18, 20], 1, 29);
    let linear = shared.clone().bind(0, &Term::over(&[3, 3, 4]));
    let repeated = shared.clone().bind(0, &Term::over(&[1, 2, 2, 3, 3, 4]));
    vec![
        example("parts forgotten", 3, forgotten, &[1, 2, 4], (6, 7)),
        example("partly shared", 5, shared, &[1, 16, 18, 20], (1, 29)),
        example("bound to a linear term", 5, linear, &[17, 19, 21], (0, 29)),
        example(
            "bound to a term that is not linear",
            5,
            repeated,
            &[17, 19, 21],
            (0, 28),
        ),
    ]
}

impl Example {
    /// Compares the example in every window, where what is covered is what is shared.
    pub fn compare(&self, tally: &mut Tally) -> io::Result<()> {
        let n = self.positions;
        for window in 0..1 << n {
            let sheet = self.steps.clone().only_in(n, window).ask_all(n).end();
            tally.compare(self.name, &sheet)?;
            tally.expect(self.name, self.shares_in(window, &sheet));
        }
        let marks = self.steps.clone().ask_all(n).end();
        tally.expect(self.name, self.marks_agree(&marks));
        Ok(())
    }

    /// The answers at the end of the sheet, a position at a time.
    fn answers(&self, sheet: &[u8]) -> Vec<Answers> {
        let n = usize::from(self.positions);
        let count = 3 * n + n * (n + 1) / 2;
        let marks = reference::runner::run(sheet, 4_095).marks;
        let mut last = marks[marks.len().saturating_sub(count + 1)..]
            .iter()
            .map(|mark| mark.answer);
        let mut yes = || last.next().unwrap_or(false);
        (0..n)
            .map(|p| Answers {
                ground: yes(),
                free: yes(),
                linear: yes(),
                shares: (p..n).map(|_| yes()).collect(),
            })
            .collect()
    }

    fn shares_in(&self, window: u16, sheet: &[u8]) -> bool {
        let covered = |p: usize, q: usize| {
            let pair = 1 << p | 1 << q;
            self.groups
                .iter()
                .any(|g| g & pair == pair && g & !window == 0)
        };
        self.answers(sheet).iter().enumerate().all(|(p, told)| {
            let shares = told
                .shares
                .iter()
                .enumerate()
                .all(|(i, yes)| *yes == covered(p, p + i));
            told.ground != covered(p, p) && shares
        })
    }

    fn marks_agree(&self, sheet: &[u8]) -> bool {
        let has = |mask: u16, p: usize| mask >> p & 1 == 1;
        let answers = self.answers(sheet);
        answers
            .iter()
            .enumerate()
            .all(|(p, told)| told.free == has(self.free, p) && told.linear == has(self.linear, p))
    }
}

/// What is answered of one position: whether it shares is asked with itself and each one after it.
struct Answers {
    ground: bool,
    free: bool,
    linear: bool,
    shares: Vec<bool>,
}
