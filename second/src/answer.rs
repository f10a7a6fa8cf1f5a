//! Section "Answer numbers".

/// The two answers that are not refusals.
#[derive(Clone, Copy, Debug, PartialEq, Eq)]
pub enum Done {
    /// Done.
    Done = 0,
    /// Done: the struck line had gone before.
    GoneBefore = 15,
}

/// Every other answer; it leaves everything unchanged.
#[derive(Clone, Copy, Debug, PartialEq, Eq)]
pub enum Refusal {
    /// Record or table not sound, or wrong length.
    NotSound = 1,
    /// Patch malformed.
    Malformed = 2,
    /// The author is this site and the number is above its count.
    OwnUnknown = 3,
    /// Received already.
    Already = 4,
    /// Some Before entry is above this replica's count.
    Early = 5,
    /// A row has the inserted position already.
    PositionTaken = 6,
    /// 512 rows are in use.
    Full = 7,
    /// No such row.
    NoRow = 8,
    /// Text over 48 bytes.
    LongText = 9,
    /// Patch buffer under 161 bytes.
    ShortBuffer = 10,
    /// The own count is 1,000,000.
    NumbersUsedUp = 11,
    /// No place of at most 8 identifiers.
    NoPlace = 12,
    /// The place made is a row already.
    PlaceTaken = 13,
    /// Site not 1 to 16.
    NoSite = 14,
}

/// The document's number for an outcome.
pub(crate) fn number(outcome: Result<Done, Refusal>) -> u32 {
    match outcome {
        Ok(done) => done as u32,
        Err(refusal) => refusal as u32,
    }
}
