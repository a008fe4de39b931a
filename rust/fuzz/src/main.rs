//! Fuzzing of the proved check and run against the second opinion, guided by coverage:
//! `cargo run --release -p fuzz -- SECONDS [SEED]`. The same seed makes the same inputs.
//!
//! What is met is seen in the answers and, where the program was built with counters
//! (docs/BENCHMARKS.md), in the edges of the second opinion's code.

#![deny(unsafe_code)]

mod compare;
#[allow(unsafe_code)] // the one file that looks at the compiler's counters
mod counters;
mod coverage;
mod inputs;

use std::collections::BTreeMap;
use std::fs::File;
use std::os::unix::fs::FileExt;
use std::time::{Duration, Instant};

use compare::compare;
use coverage::Coverage;
use inputs::Input;
use second::random::Random;

/// Stack of the thread that calls the proved library, as in its tests.
const STACK: usize = 256 * 1024;

/// Makes inputs, compares on them, and keeps those that show something new.
struct Fuzzer {
    random: Random,
    coverage: Coverage,
    corpus: Vec<Input>,
    /// How often the check, and the run, answered each number.
    met: [BTreeMap<u8, usize>; 2],
}

impl Fuzzer {
    /// Begins with the seeds; gives an input where the two differ.
    fn new(seed: u64) -> Result<Self, Input> {
        let (random, coverage) = (Random::new(seed), Coverage::default());
        let mut fuzzer = Self { random, coverage, corpus: vec![], met: Default::default() };
        let seeds = inputs::seeds(&mut fuzzer.random);
        seeds.into_iter().try_for_each(|input| fuzzer.execute(input))?;
        Ok(fuzzer)
    }

    /// Compares on one input; gives it back where the two differ.
    fn execute(&mut self, input: Input) -> Result<(), Input> {
        let Ok(answers) = compare(&input) else {
            return Err(input);
        };
        let numbers = [answers.verdict.number, answers.answer.number];
        for (met, number) in self.met.iter_mut().zip(numbers) {
            *met.entry(number).or_default() += 1;
        }
        if self.coverage.is_new(&input.image, &answers) {
            self.corpus.push(input);
        }
        Ok(())
    }

    /// An input made from two that were kept, the first of them more often short and new than not.
    fn next(&mut self) -> Input {
        let count = self.corpus.len();
        let mut any = || &self.corpus[self.random.below(count).max(self.random.below(count))];
        let (one, another, other) = (any(), any(), any());
        let shorter = if one.image.len() <= another.image.len() { one } else { another };
        inputs::mutated(shorter, other, &mut self.random)
    }

    fn say(&self) {
        let [checks, runs] = &self.met;
        let executions: usize = checks.values().sum();
        let (kept, coverage) = (self.corpus.len(), self.coverage.summary());
        println!("{executions} executions, {kept} inputs kept, {coverage}");
        println!("checks by number {checks:?}\nruns by number {runs:?}");
    }
}

/// Fuzzes for so long. The input under way is kept in a file, where a crash or a hang leaves it.
fn fuzz(length: Duration, seed: u64) -> Result<(), Input> {
    let path = std::env::temp_dir().join(format!("axcut-fuzz-{seed}"));
    let file = File::create(&path).expect("a file for the input under way");
    println!("seed {seed}; the input under way: {}", path.display());
    let mut fuzzer = Fuzzer::new(seed)?;
    let start = Instant::now();
    while start.elapsed() < length {
        let input = fuzzer.next();
        let limits = format!("{:?} {} {}\n", input.args, input.fuel, input.words);
        let bytes = [limits.as_bytes(), &input.image].concat();
        let kept = file.write_all_at(&bytes, 0).and_then(|()| file.set_len(bytes.len() as u64));
        kept.expect("a place to write to");
        fuzzer.execute(input)?;
    }
    fuzzer.say();
    Ok(())
}

/// The input with all bytes of the image taken away that the difference does not need.
fn minimized(mut input: Input, differs: impl Fn(&Input) -> bool) -> Input {
    let mut run = input.image.len();
    while run > 0 {
        let mut place = 0;
        while place < input.image.len() {
            let mut shorter = input.clone();
            shorter.image.drain(place..(place + run).min(input.image.len()));
            if differs(&shorter) {
                input = shorter;
            } else {
                place += run;
            }
        }
        run /= 2;
    }
    input
}

fn main() {
    let mut numbers = std::env::args().skip(1).map(|word| word.parse().expect("a number"));
    let seconds = numbers.next().expect("the number of seconds");
    let seed = numbers.next().unwrap_or(1);
    let task = move || fuzz(Duration::from_secs(seconds), seed);
    let thread = std::thread::Builder::new().stack_size(STACK).spawn(task);
    if let Err(input) = thread.expect("a thread").join().expect("no panic") {
        let least = minimized(input, |input| compare(input).is_err());
        panic!("{}: {least:?}", compare(&least).err().unwrap_or_default());
    }
    println!("no difference");
}

/// Nothing is timed here.
#[cfg(test)]
mod tests {
    use super::*;

    #[test]
    fn some_thousand_inputs_meet_every_number_and_no_difference() {
        let mut fuzzer = Fuzzer::new(1).expect("no difference on the seeds");
        for _ in 0..5_000 {
            let input = fuzzer.next();
            fuzzer.execute(input).expect("no difference");
        }
        let numbers: Vec<u8> = fuzzer.met[1].keys().copied().collect();
        assert_eq!(numbers, [1, 2, 3, 4, 5, 6, 7, 8, 9, 10, 11, 20, 21, 40, 41, 42]);
    }

    #[test]
    fn a_difference_is_made_small() {
        let input = Input { image: (0..200).collect(), args: vec![], fuel: 0, words: 0 };
        let least = minimized(input, |input| input.image.contains(&7) && input.image.contains(&99));
        assert_eq!(least.image, [7, 99]);
    }
}
