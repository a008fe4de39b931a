//! What is new about an execution: an edge of the second opinion's code, passed in another class
//! of counts than before, or answers of another kind.

use std::collections::HashSet;
use std::sync::atomic::Ordering;

use crate::compare::Answers;
use crate::counters::counters;

/// All that the executions so far have shown.
#[derive(Default)]
pub(crate) struct Coverage {
    /// For each counter the counts seen, one bit for each class of counts.
    counts: Vec<u8>,
    answers: HashSet<[u32; 6]>,
}

impl Coverage {
    /// Forgets what was counted so far.
    pub(crate) fn start() {
        counters().iter().for_each(|counter| counter.store(0, Ordering::Relaxed));
    }

    /// Whether what was counted since the start, or what was answered, is new.
    pub(crate) fn is_new(&mut self, image: &[u8], answers: &Answers) -> bool {
        let mut is_new = self.answers.insert(kind(image, answers));
        self.counts.resize(counters().len(), 0);
        for (seen, counter) in self.counts.iter_mut().zip(counters()) {
            let class = class(counter.load(Ordering::Relaxed));
            is_new |= *seen | class != *seen;
            *seen |= class;
        }
        is_new
    }

    /// How much was met, in words.
    pub(crate) fn summary(&self) -> String {
        let met = self.counts.iter().filter(|&&seen| seen != 0).count();
        let (all, kinds) = (counters().len(), self.answers.len());
        format!("{met} of {all} counters met, {kinds} kinds of answers")
    }
}

/// One bit for 1, 2, 3, 4 to 7, 8 to 15, 16 to 31, 32 to 127, and 128 or more; none for 0.
fn class(count: u8) -> u8 {
    match count {
        0 => 0,
        1..=3 => 1 << (count - 1),
        4..=31 => 2 << count.ilog2(),
        32..=127 => 1 << 6,
        128.. => 1 << 7,
    }
}

/// The numbers, the byte at the fault and the one before it, and how large steps and words are.
fn kind(image: &[u8], Answers { verdict, answer }: &Answers) -> [u32; 6] {
    let place = verdict.offset;
    let byte = |place: usize| image.get(place).map_or(u32::MAX, |&byte| u32::from(byte.min(8)));
    let size = |number: u32| u32::BITS - number.leading_zeros();
    let [number, end] = [verdict.number, answer.number].map(u32::from);
    let (here, before) = (byte(place), byte(place.wrapping_sub(1)));
    [number, end, here, before, size(answer.steps), size(answer.words)]
}
