//! Says in words what the proved check and run answer for an image.
//!
//! - [`explain`] checks and runs an image, and is the text on both.
//! - [`text`] makes the text of a verdict and of an answer, from the words of [`meaning`] and with
//!   the bytes of [`window`].
//! - [`command`] reads the command line of the program `axcut-explain`.

#![forbid(unsafe_code)]
#![warn(missing_docs)]

pub mod command;
pub mod meaning;
pub mod text;
pub mod window;

/// What a run is given besides its image.
#[derive(Debug, Clone, PartialEq, Eq)]
pub struct Given {
    /// The arguments.
    pub args: Vec<u64>,
    /// The fuel.
    pub fuel: u32,
    /// How many words the table has. Some more than the 8,000 that a run takes can be asked for,
    /// to see it refused.
    pub words: u16,
}

/// As document 01's program runs an image.
impl Default for Given {
    fn default() -> Self {
        Self { args: vec![], fuel: 100_000, words: 1_024 }
    }
}

/// What the check makes of the image of this name, and the run where it is accepted.
pub fn explain(name: &str, image: &[u8], given: &Given) -> String {
    let verdict = axcut::check(image);
    let checked = text::of_check(name, image, verdict);
    if !verdict.is_accepted() {
        return checked;
    }
    let mut table = vec![0; usize::from(given.words)];
    let answer = axcut::run(image, &given.args, given.fuel, &mut table);
    checked + &text::of_run(given, answer, &table)
}
