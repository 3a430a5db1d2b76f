//! The numbered refusals of document 01, "Numbers and trade words", and those that document 02 adds.

/// Why a call or a sheet is turned down. The discriminant is the document's number.
#[derive(Clone, Copy, Debug, PartialEq, Eq, PartialOrd, Ord)]
#[repr(u8)]
pub enum Refusal {
    BadLine = 1,
    OutOfTurn = 2,
    BadLot = 3,
    BadCard = 4,
    CardFull = 5,
    NoSuchContainer = 6,
    ResultTooHigh = 7,
    AlreadyHeld = 8,
    Full = 9,
    NotHeld = 10,
    OtherLot = 11,
    SharedContainer = 12,
    TooManyTogether = 13,
    CountWrong = 14,
    TooFew = 15,
    BufferShort = 16,
    OutsideTable = 17,
    NotSteady = 18,
    BadWeight = 19,
    BadListLine = 20,
}

impl Refusal {
    pub fn number(self) -> u8 {
        self as u8
    }
}

/// The refusal of a sheet or a list with the line it stands on, counted from 1.
#[derive(Clone, Copy, Debug, PartialEq, Eq)]
pub struct Fault {
    pub refusal: Refusal,
    pub line: usize,
}

impl Fault {
    /// What lotreport and lotlist print for a sheet with it.
    pub fn printed(self) -> String {
        format!("REFUSED {} {}\n", self.refusal.number(), self.line)
    }
}
