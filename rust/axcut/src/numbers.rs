//! The numbers that the check and the run answer, as document 01 has them.
//!
//! The check answers [`ACCEPTED`] or one of [`WRONG_SIZE`] to [`BYTES_LEFT`]. The run answers the
//! same refusal where the check refuses the image, and else one of the others.

/// The check accepts the image.
pub const ACCEPTED: u8 = 0;

/// The image has fewer than 3 or more than 16,384 bytes, or its length field is wrong.
pub const WRONG_SIZE: u8 = 1;
/// The version byte is not 1.
pub const WRONG_VERSION: u8 = 2;
/// An item or region passes the end of its region.
pub const PASSES_END: u8 = 3;
/// A count is outside its limits.
pub const WRONG_COUNT: u8 = 4;
/// An environment has more than 32 entries.
pub const TOO_WIDE: u8 = 5;
/// A kind, code or operation is unknown, or the number of an `ext` is not 0.
pub const UNKNOWN_CODE: u8 = 6;
/// There is no such signature, symbol, label or position.
pub const UNKNOWN_NAME: u8 = 7;
/// A premise of the typing rules fails.
pub const ILL_TYPED: u8 = 8;
/// There are too few or too many clauses, or a clause has another symbol than its place asks for.
pub const WRONG_CLAUSE: u8 = 9;
/// A clause is deeper than 48.
pub const TOO_DEEP: u8 = 10;
/// Bytes are left in a region, or in the image after the last body.
pub const BYTES_LEFT: u8 = 11;

/// The run is refused: the number of arguments is not label 0's.
pub const WRONG_ARGUMENTS: u8 = 20;
/// The run is refused: the table has more than 8,000 words.
pub const TABLE_TOO_LARGE: u8 = 21;

/// The run came to an exit.
pub const EXIT: u8 = 40;
/// The run's fuel is spent.
pub const FUEL_SPENT: u8 = 41;
/// The run's room is spent: the next statement's block does not fit in the table.
pub const ROOM_SPENT: u8 = 42;
