//! Faults on a sheet.

use std::fmt;

#[derive(Clone, Copy, Debug, PartialEq, Eq, PartialOrd, Ord, Hash)]
pub enum Layer {
    Reader,
    Runner,
    Keeper,
}

/// A refusal's number, who refused, and the place and the step of the record it came from.
#[derive(Clone, Copy, Debug, PartialEq, Eq)]
pub struct Fault {
    pub number: u8,
    pub layer: Layer,
    pub place: usize,
    pub step: usize,
}

impl fmt::Display for Layer {
    fn fmt(&self, f: &mut fmt::Formatter<'_>) -> fmt::Result {
        f.write_str(match self {
            Layer::Reader => "reader",
            Layer::Runner => "runner",
            Layer::Keeper => "keeper",
        })
    }
}

impl fmt::Display for Fault {
    fn fmt(&self, f: &mut fmt::Formatter<'_>) -> fmt::Result {
        let Fault {
            number,
            layer,
            place,
            step,
        } = self;
        write!(f, "refused {number} at {place} step {step} {layer}")
    }
}
