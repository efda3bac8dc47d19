//! The refusals and the faults that carry them.

/// Why a step was refused; the value is the number that is printed.
#[derive(Clone, Copy, Debug, PartialEq, Eq)]
pub enum Refusal {
    Truncated = 1,
    Kind = 2,
    Length = 3,
    Order = 4,
    Count = 5,
    Position = 6,
    Itself = 7,
    Depth = 8,
    Groups = 9,
    Marks = 10,
    Letter = 11,
    Capacity = 12,
    Room = 13,
}

/// Which part of the program refused.
#[derive(Clone, Copy, Debug, PartialEq, Eq)]
pub enum Layer {
    Reader,
    Runner,
    Keeper,
}

impl Layer {
    pub fn name(self) -> &'static str {
        match self {
            Layer::Reader => "reader",
            Layer::Runner => "runner",
            Layer::Keeper => "keeper",
        }
    }
}

/// A refusal with the layer, the step and the byte place it belongs to.
#[derive(Clone, Copy, Debug, PartialEq, Eq)]
pub struct Fault {
    pub refusal: Refusal,
    pub layer: Layer,
    pub step: usize,
    pub place: usize,
}
