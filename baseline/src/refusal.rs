//! The numbers of refusal.

#[derive(Clone, Copy, Debug, PartialEq, Eq)]
pub enum Refusal {
    Descriptors = 1,
    SharedAreaId = 2,
    Areas = 3,
    ShortScratch = 4,
    Tables = 5,
    Clash = 6,
    NoRoot = 7,
    BadRequest = 8,
    Absent = 9,
    Ambiguous = 10,
    WrongKind = 11,
    NameTaken = 12,
    Broken = 13,
    AfterEnd = 14,
    NoRoom = 15,
    LastSequence = 16,
    NoSource = 17,
}

impl Refusal {
    pub fn number(self) -> u32 {
        self as u32
    }
}

/// The number of a call that answers nothing else.
pub fn number(result: Result<(), Refusal>) -> u32 {
    result.map_or_else(Refusal::number, |()| 0)
}
