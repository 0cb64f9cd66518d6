//! Why an input is refused.

/// The reasons, by the names that the program prints.
#[derive(Debug, Clone, Copy, PartialEq, Eq)]
pub enum Reason {
    Short,
    Version,
    LongNumber,
    BigNumber,
    NamespaceKind,
    MultinameKind,
    Index,
    OptionCount,
    OptionKind,
    TraitKind,
    Opcode,
    CodeLength,
    CodeEnds,
    Target,
    HandlerRange,
    SecondBody,
    Trailing,
    FileTooLong,
}

/// The place and the reason of the first fault. A place fits in 32 bits, since no more than 2^24 + 1 bytes are read.
#[derive(Debug, Clone, Copy, PartialEq, Eq)]
pub struct Fault {
    pub place: u32,
    pub reason: Reason,
}

impl Fault {
    pub fn new(place: usize, reason: Reason) -> Self {
        Fault {
            place: place as u32,
            reason,
        }
    }
}

pub type Answer<T> = Result<T, Fault>;
