//! The proved check and run beside the second opinion's, on one input.

use second::layout::MOST_WORDS;

use crate::coverage::Coverage;
use crate::inputs::Input;

/// Words before and behind each table that are not lent with it. No block is larger.
const GUARD: usize = 64;
/// Most words of a table that is lent: one more than a run takes.
pub(crate) const MOST_LENT: usize = MOST_WORDS + 1;

/// What both answered.
pub(crate) struct Answers {
    pub(crate) verdict: axcut::Verdict,
    pub(crate) answer: axcut::Answer,
}

/// What both answer; or, where they differ, in what. Coverage starts with it.
pub(crate) fn compare(input: &Input) -> Result<Answers, &'static str> {
    let Input { image, args, fuel, words } = input;
    let lent = GUARD..GUARD + words;
    let pattern = (0..(words + 2 * GUARD) as u64).map(|word| 0xA5A5_5A5A_0000_0000 | word);
    let before: Vec<u64> = pattern.collect();
    let (mut for_proved, mut for_second) = (before.clone(), before.clone());
    Coverage::start();
    let second::Verdict { number, offset } = second::check(image);
    let verdict = axcut::check(image);
    if verdict != (axcut::Verdict { number, offset: offset as usize }) {
        return Err("the checks differ");
    }
    let answer = axcut::run(image, args, *fuel, &mut for_proved[lent.clone()]);
    let second::Answer { number, steps, words, value } =
        second::run(image, args, *fuel, &mut for_second[lent]);
    if answer != (axcut::Answer { number, steps, words, value }) {
        return Err("the runs differ");
    }
    let stored = GUARD + words as usize;
    let others = |table: &[u64]| [&table[..GUARD], &table[stored..]].concat();
    if for_proved != for_second || others(&for_proved) != others(&before) {
        return Err("the tables differ, or words past those stored are changed");
    }
    Ok(Answers { verdict, answer })
}
