//! Document 01, "Image layout": the bytes and the limits it names, plus the two limits of
//! "Typing by position" (width, depth) and the table limit of "The run".
//!
//! Only numbers stand here. Whoever reads or writes images takes them from this one place, so
//! that a slip in a number cannot hide in one reader alone.

/// The version byte of every image.
pub const VERSION: u8 = 1;
/// Bytes of the version and the length field; the length field counts what follows them.
pub const START: usize = 3;
/// Most bytes of an image.
pub const MOST_BYTES: usize = 16_384;

/// Most signatures.
pub const MOST_SIGNATURES: usize = 64;
/// Most symbols of one signature.
pub const MOST_SYMBOLS: usize = 32;
/// Most parameters of one symbol.
pub const MOST_PARAMETERS: usize = 16;
/// Most labels; there is at least one.
pub const MOST_LABELS: usize = 64;
/// Most entries of an environment, so also of a label's list and of a substitute.
pub const MOST_WIDTH: usize = 32;
/// Most clauses around a statement; a body is at depth 0.
pub const MOST_DEPTH: usize = 48;
/// Most words of the table that a run is lent.
pub const MOST_WORDS: usize = 8_000;

/// Kind byte of `prd`.
pub const PRD: u8 = 0;
/// Kind byte of `cns`.
pub const CNS: u8 = 1;
/// Kind byte of `ext`.
pub const EXT: u8 = 2;

/// Code of `jump`.
pub const JUMP: u8 = 0;
/// Code of `substitute`.
pub const SUBSTITUTE: u8 = 1;
/// Code of `extern`.
pub const EXTERN: u8 = 2;
/// Code of `let`.
pub const LET: u8 = 3;
/// Code of `new`.
pub const NEW: u8 = 4;
/// Code of `switch`.
pub const SWITCH: u8 = 5;
/// Code of `invoke`.
pub const INVOKE: u8 = 6;

/// Operation `lit`.
pub const LIT: u8 = 0;
/// Operation `add`.
pub const ADD: u8 = 1;
/// Operation `sub`.
pub const SUB: u8 = 2;
/// Operation `mul`.
pub const MUL: u8 = 3;
/// Operation `ifz`.
pub const IFZ: u8 = 4;
/// Operation `less`.
pub const LESS: u8 = 5;
/// Operation `exit`.
pub const EXIT: u8 = 6;
