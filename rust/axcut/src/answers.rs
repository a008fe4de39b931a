//! What the check and the run answer: the bare numbers, and how to read them by name.

use crate::numbers::{ACCEPTED, EXIT, FUEL_SPENT, ROOM_SPENT};

/// The check's answer: 0 with the image's length, or a refusal number with its offset.
#[derive(Debug, Clone, Copy, PartialEq, Eq)]
pub struct Verdict {
    /// 0 where the image is accepted, 1 to 11 where it is refused; [`crate::numbers`] has the names.
    pub number: u8,
    /// The image's length, or where its first fault stands.
    pub offset: usize,
}

impl Verdict {
    /// Whether the image is accepted, and so may be run.
    #[must_use]
    pub fn is_accepted(self) -> bool {
        self.number == ACCEPTED
    }
}

/// The run's answer: how it ended, or why it was refused.
#[derive(Debug, Clone, Copy, PartialEq, Eq)]
pub struct Answer {
    /// 40 where the run exited, 41 where its fuel is spent, 42 where its room is spent. Of a
    /// refused run: 1 to 11 where the image is refused, 20 where the number of arguments is not
    /// label 0's, 21 where the table has more than 8,000 words. [`crate::numbers`] has the names.
    pub number: u8,
    /// The statements that were performed; 0 of a refused run.
    pub steps: u32,
    /// The words that were stored, from the table's first on; 0 of a refused run.
    pub words: u32,
    /// What the run exited with; 0 unless the number is 40.
    pub value: u64,
}

impl Answer {
    /// How the run ended, with the value where it has one.
    #[must_use]
    pub fn ending(self) -> Ending {
        match self.number {
            EXIT => Ending::Exit(self.value),
            FUEL_SPENT => Ending::FuelSpent,
            ROOM_SPENT => Ending::RoomSpent,
            number => Ending::Refused(number),
        }
    }
}

/// How a run ended.
#[derive(Debug, Clone, Copy, PartialEq, Eq)]
pub enum Ending {
    /// By an exit, with this value.
    Exit(u64),
    /// By fuel: it performed as many statements as it may.
    FuelSpent,
    /// By room: the next statement's block does not fit in the table.
    RoomSpent,
    /// It was refused and did nothing. The number is the check's (1 to 11), or
    /// [`WRONG_ARGUMENTS`](crate::numbers::WRONG_ARGUMENTS), or
    /// [`TABLE_TOO_LARGE`](crate::numbers::TABLE_TOO_LARGE).
    Refused(u8),
}
