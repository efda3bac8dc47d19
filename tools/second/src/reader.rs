//! The reader: records, and the steps and terms in them.

use crate::description::Term;
use crate::groups::{single, Mask, MAX_POSITIONS};
use crate::keeper::Question;
use crate::refusal::Refusal;

/// The longest sheet that is read.
pub const MAX_SHEET: usize = 65_535;

/// Bytes of a length and a kind.
const HEADER: usize = 4;

/// The deepest compound, the outermost counting as 1.
const MAX_DEPTH: usize = 16;

/// A refusal and the place of the innermost record.
#[derive(Clone, Copy, Debug, PartialEq, Eq)]
pub struct ReadFault {
    pub refusal: Refusal,
    pub place: usize,
}

/// The kinds of step.
#[derive(Clone, Copy, Debug, PartialEq, Eq)]
pub enum StepKind {
    Open,
    Bind,
    Join,
    Forget,
    Ask,
    End,
}

/// One step, read whole.
#[derive(Clone, Debug, PartialEq, Eq)]
pub enum Step {
    Open(u8),
    Bind(u8, Term),
    Join {
        free: Mask,
        linear: Mask,
        groups: Vec<Mask>,
    },
    Forget(Mask),
    Ask(Question),
    End,
}

/// A record that lies wholly in what is around it.
#[derive(Clone, Copy, Debug)]
pub struct Record<'a> {
    pub place: usize,
    code: u16,
    payload: &'a [u8],
}

impl StepKind {
    fn of(code: u16) -> Option<StepKind> {
        Some(match code {
            1 => StepKind::Open,
            2 => StepKind::Bind,
            3 => StepKind::Join,
            4 => StepKind::Forget,
            5 => StepKind::Ask,
            6 => StepKind::End,
            _ => return None,
        })
    }

    pub fn name(self) -> &'static str {
        match self {
            StepKind::Open => "open",
            StepKind::Bind => "bind",
            StepKind::Join => "join",
            StepKind::Forget => "forget",
            StepKind::Ask => "ask",
            StepKind::End => "end",
        }
    }

    fn takes_length(self, length: usize) -> bool {
        match self {
            StepKind::Open => length == 1,
            StepKind::Bind => length >= 5,
            StepKind::Join => length.is_multiple_of(2) && length >= 4,
            StepKind::Forget => length == 2,
            StepKind::Ask => length == 2 || length == 3,
            StepKind::End => length == 0,
        }
    }
}

fn number(bytes: &[u8]) -> u16 {
    u16::from_le_bytes([bytes[0], bytes[1]])
}

impl<'a> Record<'a> {
    /// The record that starts at a place and must end within `bytes`.
    /// `bytes` begins with the record.
    pub fn at(bytes: &'a [u8], place: usize) -> Result<Record<'a>, ReadFault> {
        let truncated = ReadFault {
            refusal: Refusal::Truncated,
            place,
        };
        if bytes.len() < HEADER {
            return Err(truncated);
        }
        let end = HEADER + number(bytes) as usize;
        let payload = bytes.get(HEADER..end).ok_or(truncated)?;
        let code = number(&bytes[2..]);
        Ok(Record {
            place,
            code,
            payload,
        })
    }

    /// The bytes of the record, its header among them.
    pub fn size(&self) -> usize {
        HEADER + self.payload.len()
    }

    fn fault(&self, refusal: Refusal) -> ReadFault {
        let place = self.place;
        ReadFault { refusal, place }
    }

    fn require(&self, holds: bool, refusal: Refusal) -> Result<(), ReadFault> {
        if holds {
            Ok(())
        } else {
            Err(self.fault(refusal))
        }
    }

    pub fn step_kind(&self) -> Result<StepKind, ReadFault> {
        StepKind::of(self.code).ok_or(self.fault(Refusal::Kind))
    }

    /// A position byte of the payload.
    fn position(&self, index: usize) -> Result<u8, ReadFault> {
        let position = self.payload[index];
        self.require(position < MAX_POSITIONS, Refusal::Position)?;
        Ok(position)
    }

    /// Reads the length and the payload of a step.
    pub fn step(&self, kind: StepKind) -> Result<Step, ReadFault> {
        self.require(kind.takes_length(self.payload.len()), Refusal::Length)?;
        Ok(match kind {
            StepKind::Open => Step::Open(self.payload[0]),
            StepKind::Bind => self.bind()?,
            StepKind::Join => Step::Join {
                free: number(self.payload),
                linear: number(&self.payload[2..]),
                groups: self.payload[4..].chunks(2).map(number).collect(),
            },
            StepKind::Forget => Step::Forget(number(self.payload)),
            StepKind::Ask => Step::Ask(self.question()?),
            StepKind::End => Step::End,
        })
    }

    fn bind(&self) -> Result<Step, ReadFault> {
        let position = self.position(0)?;
        let record = Record::at(&self.payload[1..], self.place + HEADER + 1)?;
        let mut term = Term::default();
        record.read_term(1, &mut term)?;
        term.bare = record.code == 17;
        let left_over = self.payload.len() - 1 - record.size();
        self.require(left_over == 0, Refusal::Length)?;
        Ok(Step::Bind(position, term))
    }

    /// Adds the positions of a term record to the term. A compound that
    /// is this record has the depth given.
    fn read_term(&self, depth: usize, term: &mut Term) -> Result<(), ReadFault> {
        let length = self.payload.len();
        match self.code {
            17 => {
                self.require(length == 1, Refusal::Length)?;
                let mask = single(self.position(0)?);
                term.repeated |= term.holds & mask;
                term.holds |= mask;
                Ok(())
            }
            18 => self.require(length == 2, Refusal::Length),
            19 => {
                self.require(length >= 6, Refusal::Length)?;
                self.require(depth <= MAX_DEPTH, Refusal::Depth)?;
                self.read_arguments(depth, term)
            }
            _ => Err(self.fault(Refusal::Kind)),
        }
    }

    /// The term records after the functor of a compound.
    fn read_arguments(&self, depth: usize, term: &mut Term) -> Result<(), ReadFault> {
        let mut at = 2;
        while at < self.payload.len() {
            let argument = Record::at(&self.payload[at..], self.place + HEADER + at)?;
            argument.read_term(depth + 1, term)?;
            at += argument.size();
        }
        Ok(())
    }

    fn question(&self) -> Result<Question, ReadFault> {
        let letter = self.payload[0];
        self.require(b"gflp".contains(&letter), Refusal::Letter)?;
        let length = if letter == b'p' { 3 } else { 2 };
        self.require(self.payload.len() == length, Refusal::Length)?;
        let first = self.position(1)?;
        Ok(match letter {
            b'g' => Question::Ground(first),
            b'f' => Question::Free(first),
            b'l' => Question::Linear(first),
            _ => Question::Pair(first, self.position(2)?),
        })
    }
}
