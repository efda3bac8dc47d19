//! The runner: takes the steps of a sheet in turn and writes marks.

use crate::keeper::Keeper;
use crate::reader::{ReadFault, Record, Step, StepKind, MAX_SHEET};
use crate::refusal::{Fault, Layer, Refusal};

/// Entries in the list of marks.
const MARKS: usize = 4_096;

/// Entries in the list for the groups of a join.
const JOIN_GROUPS: usize = 4_095;

/// What the runner writes for an accepted step.
#[derive(Clone, Copy, Debug, PartialEq, Eq)]
pub struct Mark {
    pub place: usize,
    pub kind: StepKind,
    pub yes: bool,
}

#[derive(Clone, Copy, PartialEq, Eq)]
enum State {
    New,
    Open,
    Ended,
}

impl State {
    /// The state after a step of that kind, if it is its turn.
    fn after(self, kind: StepKind) -> Option<State> {
        match (self, kind) {
            (State::New, StepKind::Open) => Some(State::Open),
            (State::Open, StepKind::Open) => None,
            (State::Open, StepKind::End) => Some(State::Ended),
            (State::Open, _) => Some(State::Open),
            _ => None,
        }
    }
}

/// A run of one sheet.
struct Runner<'a> {
    sheet: &'a [u8],
    place: usize,
    state: State,
    keeper: Keeper,
    marks: Vec<Mark>,
}

/// The marks of a sheet, and the fault that stopped it if one did.
pub fn run(sheet: &[u8], capacity: usize) -> (Vec<Mark>, Option<Fault>) {
    let mut runner = Runner {
        sheet,
        place: 0,
        state: State::New,
        keeper: Keeper::new(capacity),
        marks: Vec::new(),
    };
    let fault = runner.run_all().err();
    (runner.marks, fault)
}

impl Runner<'_> {
    fn run_all(&mut self) -> Result<(), Fault> {
        if self.sheet.len() > MAX_SHEET {
            return Err(self.fault(Refusal::Length, Layer::Reader));
        }
        while self.place < self.sheet.len() {
            self.run_step()?;
        }
        if self.state != State::Ended {
            return Err(self.fault(Refusal::Truncated, Layer::Reader));
        }
        Ok(())
    }

    /// A fault at the step that is being worked.
    fn fault(&self, refusal: Refusal, layer: Layer) -> Fault {
        Fault {
            refusal,
            layer,
            step: self.marks.len(),
            place: self.place,
        }
    }

    fn read_fault(&self, fault: ReadFault) -> Fault {
        Fault {
            place: fault.place,
            ..self.fault(fault.refusal, Layer::Reader)
        }
    }

    fn run_step(&mut self) -> Result<(), Fault> {
        let out_of_turn = self.fault(Refusal::Order, Layer::Runner);
        if self.state == State::Ended {
            return Err(out_of_turn);
        }
        let record = Record::at(&self.sheet[self.place..], self.place);
        let record = record.map_err(|f| self.read_fault(f))?;
        let kind = record.step_kind().map_err(|f| self.read_fault(f))?;
        let state = self.state.after(kind).ok_or(out_of_turn)?;
        let step = record.step(kind).map_err(|f| self.read_fault(f))?;
        self.require_room(&step)?;
        let answer = self.hand_over(step);
        let yes = answer.map_err(|r| self.fault(r, Layer::Keeper))?;
        let place = self.place;
        self.marks.push(Mark { place, kind, yes });
        self.state = state;
        self.place += record.size();
        Ok(())
    }

    /// Is there space for the mark and for the groups of a join?
    fn require_room(&self, step: &Step) -> Result<(), Fault> {
        let many_groups = match step {
            Step::Join { groups, .. } => groups.len() > JOIN_GROUPS,
            _ => false,
        };
        if self.marks.len() >= MARKS || many_groups {
            return Err(self.fault(Refusal::Room, Layer::Runner));
        }
        Ok(())
    }

    /// Hands a step to the keeper; the answer is yes unless it says no.
    fn hand_over(&mut self, step: Step) -> Result<bool, Refusal> {
        match step {
            Step::Open(n) => self.keeper.open(n)?,
            Step::Bind(x, term) => self.keeper.bind(x, term)?,
            Step::Join {
                free,
                linear,
                groups,
            } => self.keeper.join(free, linear, &groups)?,
            Step::Forget(mask) => self.keeper.forget(mask)?,
            Step::Ask(question) => return self.keeper.ask(question),
            Step::End => (),
        }
        Ok(true)
    }
}
