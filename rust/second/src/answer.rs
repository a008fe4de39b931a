//! Document 01, "Refusal numbers" and "The run": what a check and a run answer.

/// The check's answer: 0 with the image's length, or a refusal number with its offset.
#[derive(Clone, Copy, PartialEq, Eq, Debug, Hash)]
pub struct Verdict {
    /// 0 where the image is accepted, 1 to 11 where it is refused.
    pub number: u8,
    /// The image's length, or the offset that the refusal table gives for the fault.
    pub offset: u32,
}

impl Verdict {
    /// The verdict on an accepted image of this many bytes.
    pub(crate) fn accepted(length: usize) -> Self {
        Self::new(0, length)
    }

    /// The verdict with this number at this offset.
    ///
    /// Offsets never pass 16,384 (a longer image is refused at 0), so the narrowing is exact.
    pub(crate) fn new(number: u8, offset: usize) -> Self {
        Self { number, offset: offset as u32 }
    }

    /// Whether the image is accepted.
    pub fn is_accepted(self) -> bool {
        self.number == 0
    }
}

/// The refusal numbers 1 to 11, one name for each row of document 01's table.
#[derive(Clone, Copy, PartialEq, Eq, Debug)]
pub(crate) enum Fault {
    /// 1: image too short or too long, or the length field wrong.
    Size = 1,
    /// 2: version byte not 1.
    Version = 2,
    /// 3: an item or region passes the end of its region.
    PassesEnd = 3,
    /// 4: a count outside its limits.
    Count = 4,
    /// 5: environment above 32.
    Width = 5,
    /// 6: unknown kind, code or operation; `ext` number not 0.
    Unknown = 6,
    /// 7: unknown signature, symbol, label or position.
    Unbound = 7,
    /// 8: a typing premise fails.
    Premise = 8,
    /// 9: clause count or clause symbol wrong.
    Clause = 9,
    /// 10: clause deeper than 48.
    Depth = 10,
    /// 11: bytes left in a region, or in the image after the last body.
    BytesLeft = 11,
}

impl Fault {
    /// This fault met at this offset.
    pub(crate) fn at(self, offset: usize) -> Verdict {
        Verdict::new(self as u8, offset)
    }
}

/// The run's answer.
#[derive(Clone, Copy, PartialEq, Eq, Debug, Hash)]
pub struct Answer {
    /// The check's number, or 20, 21, 40, 41, 42.
    pub number: u8,
    /// Statements performed.
    pub steps: u32,
    /// Words stored in the table.
    pub words: u32,
    /// What `exit` named; 0 unless the number is 40.
    pub value: u64,
}

/// The run was given another number of arguments than label 0 has.
pub const ARGUMENTS_DIFFER: u8 = 20;
/// The run was lent a table above 8,000 words.
pub const TABLE_TOO_LARGE: u8 = 21;
/// The run reached `exit`.
pub const EXITED: u8 = 40;
/// The run's fuel is spent.
pub const FUEL_SPENT: u8 = 41;
/// The run's room is spent.
pub const ROOM_SPENT: u8 = 42;

impl Answer {
    /// The answer of a refused run: nothing but its number.
    pub(crate) fn refused(number: u8) -> Self {
        Self { number, steps: 0, words: 0, value: 0 }
    }

    /// The answer of a run that reached `exit`.
    pub(crate) fn exited(steps: u32, words: usize, value: u64) -> Self {
        Self { number: EXITED, steps, words: words as u32, value }
    }

    /// The answer of a run that ended for want of fuel or room.
    pub(crate) fn spent(number: u8, steps: u32, words: usize) -> Self {
        Self { number, steps, words: words as u32, value: 0 }
    }
}
