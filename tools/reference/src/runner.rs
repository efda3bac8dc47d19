//! The runner: a whole sheet on a keeper, and the lines that are printed of it.

use crate::keeper::Keeper;
use crate::reader::{Misread, Record, Step};
use crate::refusal::{Fault, Layer};

pub const LONGEST_SHEET: usize = 65_535;
pub const MARKS: usize = 4_096;
pub const GROUPS: usize = 4_095;

#[derive(Clone, Copy, PartialEq, Eq)]
enum State {
    New,
    Open,
    Ended,
}

#[derive(Clone, Copy, Debug, PartialEq, Eq)]
pub struct Mark {
    pub place: usize,
    pub kind: u16,
    pub answer: bool,
}

/// What became of a sheet: the marks of the steps that were done, and the fault that ended it, if any.
pub struct Outcome {
    pub marks: Vec<Mark>,
    pub fault: Option<Fault>,
}

/// Who refused what, before the step is known.
struct Stop {
    number: u8,
    layer: Layer,
    place: usize,
}

impl From<Misread> for Stop {
    fn from(misread: Misread) -> Stop {
        Stop {
            number: misread.number,
            layer: Layer::Reader,
            place: misread.place,
        }
    }
}

/// Runs a sheet on a new keeper of that capacity.
pub fn run(sheet: &[u8], capacity: usize) -> Outcome {
    let mut keeper = Keeper::new(capacity);
    let mut marks = Vec::new();
    let fault = run_steps(sheet, &mut keeper, &mut marks)
        .err()
        .map(|stop| Fault {
            number: stop.number,
            layer: stop.layer,
            place: stop.place,
            step: marks.len(),
        });
    Outcome { marks, fault }
}

fn run_steps(sheet: &[u8], keeper: &mut Keeper, marks: &mut Vec<Mark>) -> Result<(), Stop> {
    if sheet.len() > LONGEST_SHEET {
        return Err(Misread {
            number: 3,
            place: 0,
        }
        .into());
    }
    let mut state = State::New;
    let mut at = 0;
    while at < sheet.len() {
        let runner = |number| Stop {
            number,
            layer: Layer::Runner,
            place: at,
        };
        if state == State::Ended {
            return Err(runner(4));
        }
        let record = Record::read(sheet, at, sheet.len())?;
        if !(1..=6).contains(&record.kind) {
            return Err(Misread {
                number: 2,
                place: at,
            }
            .into());
        }
        state = after(state, record.kind).ok_or_else(|| runner(4))?;
        let step = record.step(sheet)?;
        if marks.len() == MARKS {
            return Err(runner(13));
        }
        if matches!(&step, Step::Join(_, _, groups) if groups.len() > GROUPS) {
            return Err(runner(13));
        }
        let answer = serve(keeper, step).map_err(|number| Stop {
            number,
            layer: Layer::Keeper,
            place: at,
        })?;
        marks.push(Mark {
            place: at,
            kind: record.kind,
            answer,
        });
        at = record.end;
    }
    match state {
        State::Ended => Ok(()),
        State::New | State::Open => Err(Misread {
            number: 1,
            place: at,
        }
        .into()),
    }
}

/// The state after a step, if the step has its turn.
fn after(state: State, kind: u16) -> Option<State> {
    match (state, kind) {
        (State::New, 1) => Some(State::Open),
        (State::Open, 2..=5) => Some(State::Open),
        (State::Open, 6) => Some(State::Ended),
        _ => None,
    }
}

fn serve(keeper: &mut Keeper, step: Step) -> Result<bool, u8> {
    match step {
        Step::Open(n) => keeper.open(n)?,
        Step::Bind(x, term) => keeper.bind(x, &term)?,
        Step::Join(free, linear, groups) => keeper.join(free, linear, &groups)?,
        Step::Forget(mask) => keeper.forget(mask)?,
        Step::Ask(question) => return keeper.ask(question),
        Step::End => {}
    }
    Ok(true)
}

impl Outcome {
    /// The printed lines.
    pub fn lines(&self) -> String {
        let mut text = String::new();
        for mark in &self.marks {
            let kind = ["open", "bind", "join", "forget", "ask", "end"][usize::from(mark.kind) - 1];
            let answer = if mark.answer { "yes" } else { "no" };
            text.push_str(&format!("{} {kind} {answer}\n", mark.place));
        }
        if let Some(fault) = &self.fault {
            text.push_str(&format!("{fault}\n"));
        }
        text
    }
}

#[cfg(test)]
mod tests {
    use super::*;

    #[test]
    fn a_sheet_prints_its_lines() {
        let sheet = [
            1, 0, 1, 0, 2, 6, 0, 2, 0, 0, 1, 0, 17, 0, 1, 3, 0, 5, 0, 112, 0, 1, 2, 0, 5, 0, 103,
            0, 0, 0, 6, 0,
        ];
        let lines = run(&sheet, 64).lines();
        assert_eq!(
            lines,
            "0 open yes\n5 bind yes\n15 ask yes\n22 ask no\n28 end yes\n"
        );
    }

    #[test]
    fn no_bytes_are_no_end() {
        assert_eq!(run(&[], 64).lines(), "refused 1 at 0 step 0 reader\n");
    }
}
