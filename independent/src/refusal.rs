//! The refusal numbers.

#[derive(Clone, Copy, Debug, PartialEq, Eq)]
#[repr(u8)]
pub enum Refusal {
    CutShort = 1,
    CountOutsideLimits = 2,
    BadTag = 3,
    BadCeiling = 4,
    BadLocationByte = 5,
    BadRule = 6,
    BadBounds = 7,
    LeftOver = 8,
    TooManyStates = 9,
    MarksTooShort = 10,
    StartNotLive = 11,
    SignalsDiffer = 12,
    JoinTooLarge = 13,
    SliceTooShort = 14,
    BeyondSignals = 15,
    BadState = 16,
    NothingReachesLive = 17,
    TickLengthZero = 18,
    TooManyTicks = 19,
    WrongMarks = 20,
    NotThisForm = 21,
    UnknownReading = 22,
    WorkTooShort = 23,
    NoSuchBay = 24,
    CountOfBays = 25,
    NoMeterSignals = 26,
    TotalTooLarge = 27,
    WrongIndex = 28,
    TooManyEvents = 29,
    BadWord = 30,
    BadName = 31,
    NumberTooLarge = 32,
    TooMany = 33,
    FallingLocation = 34,
    NoneOfThisNumber = 35,
}

pub const LAST_REFUSAL: usize = 35;

impl Refusal {
    pub fn number(self) -> u8 {
        self as u8
    }
}
