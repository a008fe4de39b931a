//! What is measured: kinds of images to check, and kinds of runs.

use second::generate::Profile;

use crate::images;

/// Images that are checked one after the other.
pub struct CheckKind {
    /// What stands in its line.
    pub name: &'static str,
    /// At least one.
    pub images: Vec<Vec<u8>>,
}

/// A run.
pub struct RunKind {
    /// What stands in its line.
    pub name: &'static str,
    /// Accepted.
    pub image: Vec<u8>,
    /// As many as label 0 takes.
    pub args: Vec<u64>,
    /// How it ends: 40 or 42.
    pub ending: u8,
}

/// Fuel of every run: none of them is ended by it.
pub const FUEL: u32 = u32::MAX;
/// Words of the table of every run, the most that there are.
pub const WORDS: usize = 8_000;

/// The kinds of images that are checked.
pub fn checks() -> Vec<CheckKind> {
    let one = |name, image| CheckKind { name, images: vec![image] };
    vec![
        one("long straight code", images::straight()),
        one("many signatures", images::many_signatures()),
        one("deep clauses", images::deep(33)),
        one("wide substitutes", images::wide()),
        one("loop of arithmetic", images::arithmetic()),
        one("loop of let and switch", images::let_and_switch_without_fields()),
        one("loop of new and invoke", images::new_and_invoke_without_captures()),
        CheckKind {
            name: "50 generated, typical",
            images: images::generated(Profile::Typical, 50),
        },
        CheckKind { name: "20 generated, large", images: images::generated(Profile::Large, 20) },
    ]
}

/// The kinds of runs. Loops without fields or captures take no room and run for so many rounds that
/// they have about a million steps; those with them run until the room is spent.
pub fn runs() -> Vec<RunKind> {
    let rounds = |name, image, rounds, width| {
        let mut args = vec![7; width];
        args[0] = rounds;
        RunKind { name, image, args, ending: second::EXITED }
    };
    let until_full =
        |name, image| RunKind { name, image, args: vec![1, 2, 3, 4], ending: second::ROOM_SPENT };
    vec![
        rounds("long straight code", images::straight(), 400, 2),
        rounds("many signatures", images::many_signatures(), 80_000, 2),
        rounds("deep clauses", images::deep(1), 20_000, 1),
        rounds("wide substitutes", images::wide(), 2_000, 32),
        rounds("loop of arithmetic", images::arithmetic(), 100_000, 3),
        rounds("loop of let and switch", images::let_and_switch_without_fields(), 30_000, 2),
        rounds("loop of new and invoke", images::new_and_invoke_without_captures(), 30_000, 2),
        until_full("let of 4 fields, to 8,000 words", images::let_and_switch_with_fields()),
        until_full("new of 4 captures, to 8,000 words", images::new_and_invoke_with_captures()),
    ]
}
