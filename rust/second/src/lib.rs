//! A second opinion on AxCut images, written from document 01 ("What gets built and its exact
//! rules"), and from figures 3 to 5 of the paper where document 01 refers to them.
//!
//! - [`check()`] answers the first fault of an image, or 0 with its length.
//! - [`run()`] is the machine on words; [`run_on_trees`] is figure 5's machine on trees.
//! - [`lines`] is what the program prints.
//! - [`terms`], [`assemble`], [`decode`] and [`typing`] are programs as terms, their bytes, and
//!   the typing rules over them.
//! - [`generate`] makes accepted images, [`damage`] spoils them; both from a seed alone.
//!
//! It shares nothing with what it is compared with. Two questions are answered in two shapes.
//! Whether an image is accepted: by a walk over its bytes, and by rules over the terms that they
//! spell out. How a run goes: over bytes and words, and over terms and trees. The first of each is
//! shaped as the proved code is, the second as the paper is. The two have the numbers of [`layout`]
//! in common, and the machine on trees leaves refusals to the check.

#![forbid(unsafe_code)]
#![warn(missing_docs)]

mod answer;
mod check;
mod program;
mod run;
mod trees;

pub mod assemble;
pub mod damage;
pub mod decode;
pub mod generate;
pub mod layout;
pub mod random;
pub mod terms;
pub mod typing;

pub use answer::{
    Answer, Verdict, ARGUMENTS_DIFFER, EXITED, FUEL_SPENT, ROOM_SPENT, TABLE_TOO_LARGE,
};
pub use check::check;
pub use program::{lines, MOST_READ, PROGRAM_FUEL, PROGRAM_WORDS};
pub use run::run;
pub use trees::{run_on_trees, TreeRun};
