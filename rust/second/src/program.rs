//! Document 01, "The run", last paragraph: what the program prints.

use crate::check::check;
use crate::run::run;

/// Most bytes that the program reads; one more than an image may have, so that a longer input is
/// refused (1 at 0) without being read.
pub const MOST_READ: u64 = 16_385;
/// Words of the table of the program's run.
pub const PROGRAM_WORDS: usize = 1_024;
/// Fuel of the program's run.
pub const PROGRAM_FUEL: u32 = 100_000;

/// The two lines that the program prints for `image`: check number and offset; then run number,
/// steps, words and value of a run without arguments.
pub fn lines(image: &[u8]) -> String {
    let verdict = check(image);
    let mut table = [0; PROGRAM_WORDS];
    let answer = run(image, &[], PROGRAM_FUEL, &mut table);
    format!(
        "{} {}\n{} {} {} {}\n",
        verdict.number, verdict.offset, answer.number, answer.steps, answer.words, answer.value
    )
}
