//! Images of an exact number of bytes, up to the 16,384 of document 01's table of refusals.

use crate::assemble::assemble;
use crate::layout::{MOST_BYTES, MOST_WIDTH};
use crate::terms::{Program, Straight};

/// Puts substitutes that change nothing at the start of a body, until the image has `bytes` bytes
/// or as near below that as they come.
pub(super) fn fill(program: &mut Program, bytes: usize) {
    let length = assemble(program).expect("the program has bytes before it is filled").len();
    let missing = bytes.min(MOST_BYTES).saturating_sub(length);
    // A body with entries can be filled to the byte; the fewer it has the finer.
    let label = program.labels.iter_mut().min_by_key(|label| match label.parameters.len() {
        0 => MOST_WIDTH + 1,
        width => width,
    });
    if let Some(label) = label {
        let padding = padding(label.parameters.len(), missing);
        label.body.straight.splice(0..0, padding);
    }
}

/// Substitutes that leave an environment of this width as it is, of `missing` bytes in all, or of
/// fewer where that many cannot be had.
fn padding(width: usize, mut missing: usize) -> Vec<Straight> {
    let alone = 2 + width;
    let least_pair = 4 + 2 * width;
    let most_pair = 4 + MOST_WIDTH + width;
    let mut padding = Vec::new();
    while missing > most_pair || (missing >= alone && missing < least_pair) || width == 0 {
        if missing < alone {
            return padding;
        }
        padding.push(in_place(width));
        missing -= alone;
    }
    if missing >= least_pair {
        // First all entries and some repeated, then all entries again.
        let repeated = missing - 4 - width;
        padding.push(Straight::Substitute((0..repeated).map(|n| (n % width) as u8).collect()));
        padding.push(in_place(width));
    }
    padding
}

fn in_place(width: usize) -> Straight {
    Straight::Substitute((0..width as u8).collect())
}
