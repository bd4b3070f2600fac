//! Why an entry is refused.

use std::fmt::{self, Display, Formatter};

#[derive(Clone, Copy, Debug, PartialEq, Eq)]
pub enum Refusal {
    Unreadable,
    NotOpen,
    UnderWay,
    Mismatch,
    LockUsed,
    NotCovered,
    EndTooNear,
    KeyMissing,
    KeyKnown,
    OutStands,
    TooLarge,
}

impl Refusal {
    pub fn number(self) -> u8 {
        match self {
            Refusal::Unreadable => 1,
            Refusal::NotOpen => 2,
            Refusal::UnderWay => 3,
            Refusal::Mismatch => 4,
            Refusal::LockUsed => 5,
            Refusal::NotCovered => 6,
            Refusal::EndTooNear => 7,
            Refusal::KeyMissing | Refusal::KeyKnown => 8,
            Refusal::OutStands => 9,
            Refusal::TooLarge => 10,
        }
    }

    /// An error with this refusal unless `holds`.
    pub fn unless(self, holds: bool) -> Result<(), Refusal> {
        if holds { Ok(()) } else { Err(self) }
    }
}

impl Display for Refusal {
    fn fmt(&self, formatter: &mut Formatter) -> fmt::Result {
        write!(formatter, "no {}", self.number())
    }
}
