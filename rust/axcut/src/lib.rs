//! The proved check of AxCut images, and the proved run of those that it accepts, for Rust.
//!
//! Both are the static library of the crate `boundary`. Its check is proved to answer the first
//! fault of every byte string, its run to answer what the machine of the definitions answers and
//! to leave the table that it is lent as that machine would. What is here only calls them, and
//! names what they answer; see [`check()`] and [`run()`].
//!
//! ```
//! use axcut::{numbers, Ending};
//!
//! // Image A of document 01: a literal 7, and exit with it.
//! let image = [1, 0, 20, 0, 1, 0, 0, 15, 2, 0, 0, 0, 0, 0, 0, 0, 0, 7, 0, 3, 2, 6, 0];
//! assert!(axcut::check(&image).is_accepted());
//!
//! // Without arguments, with fuel 100 and no room.
//! let answer = axcut::run(&image, &[], 100, &mut []);
//! assert_eq!(answer.ending(), Ending::Exit(7));
//! assert_eq!(answer.steps, 2);
//!
//! // With an argument that label 0 does not have.
//! let answer = axcut::run(&image, &[5], 100, &mut []);
//! assert_eq!(answer.ending(), Ending::Refused(numbers::WRONG_ARGUMENTS));
//!
//! // Cut off in the middle of the literal: the length field is not the number of bytes behind it.
//! let verdict = axcut::check(&image[..12]);
//! assert!(!verdict.is_accepted());
//! assert_eq!((verdict.number, verdict.offset), (numbers::WRONG_SIZE, 1));
//! ```

#![deny(unsafe_code)]
#![warn(missing_docs)]

mod answers;
pub mod numbers;
#[allow(unsafe_code)] // the one file that calls the static library
mod raw;

pub use answers::{Answer, Ending, Verdict};

/// The first fault of `image`, or 0 with its length.
///
/// Any byte string is taken, also an empty one or one above 16,384 bytes.
#[must_use]
pub fn check(image: &[u8]) -> Verdict {
    let raw::Verdict { number, offset } = raw::check(image);
    // Nothing is lost: no fault stands past the image's end, by the theorem `demand-1-place` of
    // crates/theorems, and an image's length is a `usize`.
    Verdict { number, offset: offset as usize }
}

/// Checks `image` and, where it is accepted, runs it on `args` for at most `fuel` statements, with
/// the words of `table` as room.
///
/// The words stored stand at the table's start; all others keep their values, and a refused run
/// leaves the whole table as it is. Any byte string and any lengths are taken, also empty ones.
#[must_use]
pub fn run(image: &[u8], args: &[u64], fuel: u32, table: &mut [u64]) -> Answer {
    let raw::Answer { number, steps, words, value } = raw::run(image, args, fuel, table);
    Answer { number, steps, words, value }
}
