//! Times of two sides that do the same, taken in turn.

use std::time::{Duration, Instant};

/// Repetitions of each measurement; odd, so that one of them is the median.
pub const REPETITIONS: usize = 15;
/// How long one repetition of the quicker side takes at least.
const SHORTEST: Duration = Duration::from_millis(10);

/// What was measured of two sides.
pub struct Measured {
    /// Seconds of one call of the proved side, the median.
    pub proved: f64,
    /// Seconds of one call of the second opinion's side, the median.
    pub second: f64,
    /// Proved by second, of the same repetition.
    pub ratio: Spread,
}

/// The least, the median and the most of some figures.
pub struct Spread {
    /// The smallest.
    pub least: f64,
    /// The one in the middle.
    pub median: f64,
    /// The largest.
    pub most: f64,
}

impl Spread {
    fn of(mut figures: Vec<f64>) -> Self {
        figures.sort_by(f64::total_cmp);
        let last = figures.len() - 1;
        Self { least: figures[0], median: figures[last / 2], most: figures[last] }
    }
}

/// Measures the two sides in turn. Which of them goes first changes with every repetition, so that
/// neither always finds the processor as the other left it.
pub fn measure(mut proved: impl FnMut(), mut second: impl FnMut()) -> Measured {
    let calls = calls_for(&mut proved).max(calls_for(&mut second));
    let mut times = [const { Vec::new() }; 2];
    for repetition in 0..REPETITIONS {
        if repetition % 2 == 0 {
            times[0].push(seconds(&mut proved, calls));
            times[1].push(seconds(&mut second, calls));
        } else {
            times[1].push(seconds(&mut second, calls));
            times[0].push(seconds(&mut proved, calls));
        }
    }
    let ratios = times[0].iter().zip(&times[1]).map(|(proved, second)| proved / second).collect();
    let [proved, second] = times.map(|times| Spread::of(times).median);
    Measured { proved, second, ratio: Spread::of(ratios) }
}

/// How many calls take long enough to be timed. Finding out also warms the side up.
fn calls_for(side: &mut impl FnMut()) -> u32 {
    let mut calls = 1;
    while seconds(side, calls) * f64::from(calls) < SHORTEST.as_secs_f64() {
        calls *= 2;
    }
    calls
}

/// Seconds of one call, by the time that so many take.
fn seconds(side: &mut impl FnMut(), calls: u32) -> f64 {
    let start = Instant::now();
    (0..calls).for_each(|_| side());
    start.elapsed().as_secs_f64() / f64::from(calls)
}
