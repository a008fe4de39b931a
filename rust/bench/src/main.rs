//! How long the proved check and the proved run take, beside the second opinion's, on the same
//! inputs: `cargo run --release -p bench`.

mod clock;
mod images;
mod kinds;

use std::hint::black_box;

use clock::{measure, Measured, REPETITIONS};
use kinds::{checks, runs, CheckKind, RunKind, FUEL, WORDS};

/// How the tables are read.
const NOTES: &str = "\
Times are medians of repetitions in which the two sides take turns. The ratio is proved / second
in one repetition: its median, its least and its most. A run checks its image first: the last
column is the part of the proved run that this takes. The runs are made long, so that it is small.";

fn main() {
    say_settings();
    println!("{NOTES}\n");
    println!("{:34}{:>10}{}", "check", "bytes", heading());
    checks().iter().for_each(report_check);
    println!();
    println!("{:34}{:>10}{}{:>10}", "run", "steps", heading(), "check");
    runs().iter().for_each(report_run);
}

/// Says how both sides were built, and how often they are measured.
fn say_settings() {
    let assertions = if cfg!(debug_assertions) { "on" } else { "off" };
    let (profile, level) = (env!("PROFILE"), env!("OPT_LEVEL"));
    println!("The proved library beside the second opinion, on the same inputs.");
    println!("Second opinion: {profile}, opt-level {level}, debug assertions {assertions}.");
    println!("Proved library: as ./build-lib builds it, the same for every profile.");
    println!("Repetitions: {REPETITIONS}.\n");
}

fn heading() -> String {
    format!("{:>13}{:>13}{:>8}{:>8}{:>8}", "proved µs", "second µs", "ratio", "least", "most")
}

fn columns(measured: &Measured) -> String {
    let Measured { proved, second, ratio } = measured;
    format!(
        "{:>13.2}{:>13.2}{:>8.2}{:>8.2}{:>8.2}",
        proved * 1e6,
        second * 1e6,
        ratio.median,
        ratio.least,
        ratio.most
    )
}

fn report_check(kind: &CheckKind) {
    assert_same_verdicts(kind);
    let bytes: usize = kind.images.iter().map(Vec::len).sum();
    println!("{:34}{bytes:>10}{}", kind.name, columns(&measure_check(&kind.images)));
}

fn report_run(kind: &RunKind) {
    let steps = agreed_answer(kind).steps;
    let run = measure_run(kind);
    let check = measure_check(std::slice::from_ref(&kind.image));
    let part = 100.0 * check.proved / run.proved;
    println!("{:34}{steps:>10}{}{part:>9.2}%", kind.name, columns(&run));
}

fn measure_check(images: &[Vec<u8>]) -> Measured {
    let proved = || {
        for image in images {
            black_box(axcut::check(black_box(image)));
        }
    };
    let second = || {
        for image in images {
            black_box(second::check(black_box(image)));
        }
    };
    measure(proved, second)
}

fn measure_run(kind: &RunKind) -> Measured {
    let RunKind { image, args, .. } = kind;
    // Each side has a table of its own, which it writes over in every run.
    let (mut for_proved, mut for_second) = (vec![0; WORDS], vec![0; WORDS]);
    let proved = || {
        black_box(axcut::run(black_box(image), black_box(args), FUEL, black_box(&mut for_proved)));
    };
    let second = || {
        black_box(second::run(black_box(image), black_box(args), FUEL, black_box(&mut for_second)));
    };
    measure(proved, second)
}

/// Both sides accept the images.
fn assert_same_verdicts(kind: &CheckKind) {
    for image in &kind.images {
        let proved = axcut::check(image);
        let second = second::check(image);
        let expected = (second.number, second.offset as usize);
        assert_eq!((proved.number, proved.offset), expected, "{}", kind.name);
        assert!(proved.is_accepted(), "{}", kind.name);
    }
}

/// The answer that both sides give, after seeing that it ends as it should and that they leave the
/// same table.
fn agreed_answer(kind: &RunKind) -> axcut::Answer {
    let RunKind { name, image, args, ending } = kind;
    let (mut for_proved, mut for_second) = (vec![0; WORDS], vec![0; WORDS]);
    let proved = axcut::run(image, args, FUEL, &mut for_proved);
    let second::Answer { number, steps, words, value } =
        second::run(image, args, FUEL, &mut for_second);
    assert_eq!(proved, axcut::Answer { number, steps, words, value }, "{name}");
    assert_eq!(for_proved, for_second, "{name}");
    assert_eq!(number, *ending, "{name}");
    proved
}

/// Nothing is timed here: only that what is measured is what its name says.
#[cfg(test)]
mod tests {
    use super::*;

    #[test]
    fn both_sides_accept_every_image() {
        checks().iter().for_each(assert_same_verdicts);
    }

    #[test]
    fn both_sides_answer_every_run_alike() {
        for kind in runs() {
            let answer = agreed_answer(&kind);
            let least = if kind.ending == second::EXITED { 200_000 } else { 5_000 };
            assert!(answer.steps >= least, "{}: {} steps", kind.name, answer.steps);
        }
    }
}
