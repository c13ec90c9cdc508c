//! The refusals and their numbers.

#[derive(Clone, Copy, Debug, PartialEq, Eq)]
#[repr(u8)]
pub enum Refusal {
    /// No board with that address.
    NoBoard = 1,
    /// A time above the end time.
    AfterEnd = 2,
    /// A file below 6 bytes.
    FileShort = 3,
    /// The edition is not 1.
    Edition = 4,
    /// A letter that opens no call.
    Letter = 5,
    /// The file ends within a call.
    CallCut = 6,
    /// A file above 60,000 bytes.
    FileLong = 7,
    /// An offered time below the last committed line's.
    BeforeLine = 20,
    /// Too few places in transit.
    TransitFull = 21,
    /// In-row and early minuses are full.
    RowFull = 22,
    /// Nothing open on that board.
    NothingOpen = 23,
    /// No item with that index.
    NoItem = 24,
    /// 65,536 offers were admitted.
    OffersSpent = 25,
    /// 1,000,000,000 runs were accepted.
    RunsSpent = 26,
}

impl Refusal {
    pub fn number(self) -> u8 {
        self as u8
    }
}
