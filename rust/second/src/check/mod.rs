//! Document 01, "Refusal numbers": the check.
//!
//! It reads front to back and stops at the first failing test. [`cursor`] has the items and
//! regions, [`head`] the signatures and labels, [`body`] the statements.

mod body;
mod cursor;
mod environment;
mod head;

pub(crate) use head::Head;

use crate::answer::{Fault, Verdict};
use crate::layout::{MOST_BYTES, START, VERSION};
use cursor::Cursor;

/// The first fault of `image`, or 0 with its length.
///
/// Any byte string is taken, also one above 16,384 bytes.
pub fn check(image: &[u8]) -> Verdict {
    match examine(image) {
        Ok(_) => Verdict::accepted(image.len()),
        Err(verdict) => verdict,
    }
}

/// Checks `image` and hands back what the run needs of its head.
pub(crate) fn examine(image: &[u8]) -> Result<Head, Verdict> {
    start(image)?;
    let mut cursor = Cursor::new(image);
    let mut head = head::read(&mut cursor)?;
    body::bodies(&mut cursor, &mut head)?;
    cursor.nothing_left()?;
    Ok(head)
}

/// The tests at the start, in the order size, version, length field.
fn start(image: &[u8]) -> Result<(), Verdict> {
    if image.len() < START || image.len() > MOST_BYTES {
        return Err(Fault::Size.at(0));
    }
    if image[0] != VERSION {
        return Err(Fault::Version.at(0));
    }
    let length = usize::from(u16::from_be_bytes([image[1], image[2]]));
    if length != image.len() - START {
        return Err(Fault::Size.at(1));
    }
    Ok(())
}
