//! The reader: records, terms and steps from bytes.

use crate::description::Term;
use crate::groups::{single, Mask, MOST_POSITIONS};
use crate::keeper::Question;

/// A refusal of the reader, placed at the innermost record.
#[derive(Clone, Copy, Debug, PartialEq, Eq)]
pub struct Misread {
    pub number: u8,
    pub place: usize,
}

/// A record whose payload lies at `start..end`.
#[derive(Clone, Copy)]
pub struct Record {
    pub place: usize,
    pub kind: u16,
    pub start: usize,
    pub end: usize,
}

pub enum Step {
    Open(usize),
    Bind(usize, Term),
    Join(Mask, Mask, Vec<Mask>),
    Forget(Mask),
    Ask(Question),
    End,
}

const DEEPEST: usize = 16;

impl Record {
    /// The record at `place`, which may not run past `end`.
    pub fn read(sheet: &[u8], place: usize, end: usize) -> Result<Record, Misread> {
        let truncated = Misread { number: 1, place };
        let start = place + 4;
        if start > end {
            return Err(truncated);
        }
        let length = usize::from(word(sheet, place));
        if start + length > end {
            return Err(truncated);
        }
        Ok(Record {
            place,
            kind: word(sheet, place + 2),
            start,
            end: start + length,
        })
    }

    fn length(&self) -> usize {
        self.end - self.start
    }

    fn refused<T>(&self, number: u8) -> Result<T, Misread> {
        Err(Misread {
            number,
            place: self.place,
        })
    }

    fn require(&self, fits: bool, number: u8) -> Result<(), Misread> {
        if fits {
            Ok(())
        } else {
            self.refused(number)
        }
    }

    fn position(&self, byte: u8) -> Result<usize, Misread> {
        self.require(usize::from(byte) < MOST_POSITIONS, 6)?;
        Ok(usize::from(byte))
    }

    /// The step of a record whose kind is one of the six.
    pub fn step(&self, sheet: &[u8]) -> Result<Step, Misread> {
        let payload = &sheet[self.start..self.end];
        match self.kind {
            1 => {
                self.require(payload.len() == 1, 3)?;
                Ok(Step::Open(usize::from(payload[0])))
            }
            2 => self.bind(sheet),
            3 => {
                self.require(payload.len() >= 4 && payload.len() % 2 == 0, 3)?;
                let mut words = payload.chunks(2).map(|w| word(w, 0));
                let free = words.next().unwrap_or(0);
                let linear = words.next().unwrap_or(0);
                Ok(Step::Join(free, linear, words.collect()))
            }
            4 => {
                self.require(payload.len() == 2, 3)?;
                Ok(Step::Forget(word(payload, 0)))
            }
            5 => self.ask(payload),
            _ => {
                self.require(payload.is_empty(), 3)?;
                Ok(Step::End)
            }
        }
    }

    fn bind(&self, sheet: &[u8]) -> Result<Step, Misread> {
        self.require(self.length() >= 5, 3)?;
        let position = self.position(sheet[self.start])?;
        let mut seen = Seen::default();
        let record = seen.term(sheet, self.start + 1, self.end, 1)?;
        self.require(record.end == self.end, 3)?;
        let term = Term {
            bare: record.kind == 17,
            held: seen.held,
            repeated: seen.repeated,
        };
        Ok(Step::Bind(position, term))
    }

    fn ask(&self, payload: &[u8]) -> Result<Step, Misread> {
        self.require(payload.len() == 2 || payload.len() == 3, 3)?;
        let letter = char::from(payload[0]);
        self.require("gflp".contains(letter), 11)?;
        self.require((letter == 'p') == (payload.len() == 3), 3)?;
        let p = self.position(payload[1])?;
        Ok(Step::Ask(match letter {
            'g' => Question::Ground(p),
            'f' => Question::Free(p),
            'l' => Question::Linear(p),
            _ => Question::Pair(p, self.position(payload[2])?),
        }))
    }
}

/// The positions seen in a term so far, and those seen more than once.
#[derive(Default)]
struct Seen {
    held: Mask,
    repeated: Mask,
}

impl Seen {
    /// Reads the term record at `place`, with all terms in it.
    fn term(
        &mut self,
        sheet: &[u8],
        place: usize,
        end: usize,
        depth: usize,
    ) -> Result<Record, Misread> {
        let record = Record::read(sheet, place, end)?;
        match record.kind {
            17 => {
                record.require(record.length() == 1, 3)?;
                let position = single(record.position(sheet[record.start])?);
                self.repeated |= self.held & position;
                self.held |= position;
            }
            18 => record.require(record.length() == 2, 3)?,
            19 => {
                record.require(record.length() >= 6, 3)?;
                record.require(depth <= DEEPEST, 8)?;
                let mut at = record.start + 2;
                while at < record.end {
                    at = self.term(sheet, at, record.end, depth + 1)?.end;
                }
            }
            _ => return record.refused(2),
        }
        Ok(record)
    }
}

fn word(bytes: &[u8], at: usize) -> u16 {
    u16::from_le_bytes([bytes[at], bytes[at + 1]])
}
