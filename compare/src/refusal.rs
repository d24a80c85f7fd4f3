//! Why a call is refused.

/// A ground, with the number that a host sees.
#[derive(Clone, Copy, Debug, PartialEq, Eq)]
#[repr(u8)]
pub enum Refusal {
    Blank = 1,
    Started = 2,
    ListTooLong = 3,
    BufferTooShort = 4,
    TextTooLong = 10,
    LineForm = 11,
    LineOrder = 12,
    LineRange = 13,
    LineUndefined = 14,
    LineLevelUnknown = 15,
    LineLevels = 16,
    LineNotReached = 17,
    LineRule = 18,
    Form = 20,
    Range = 21,
    LevelUnknown = 22,
    NoSession = 30,
    WrongItem = 31,
    NumberUsed = 32,
    Protected = 33,
    NotInContainer = 34,
    OtherHoldings = 35,
    RoleDenied = 40,
    KeyLocked = 41,
    AccessMissing = 42,
    NotReached = 43,
    Levels = 50,
    NoVoucher = 51,
    RuleDenies = 60,
}

impl Refusal {
    pub fn number(self) -> u32 {
        self as u32
    }
}

/// What a call answers that only does something.
pub type Answer = Result<(), Refusal>;

/// The number of an answer: 0 for accepted.
pub fn number_of(answer: Answer) -> u32 {
    answer.map_or_else(Refusal::number, |()| 0)
}

/// Refuses with this ground unless the need is met.
pub fn need(met: bool, ground: Refusal) -> Answer {
    if met { Ok(()) } else { Err(ground) }
}

/// Why a start text is refused, and in which line; 0 for none.
#[derive(Clone, Copy, Debug, PartialEq, Eq)]
pub struct Fault {
    pub refusal: Refusal,
    pub line: usize,
}
