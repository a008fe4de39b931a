//! The proved run against the second opinion, on the same runs every time: the answer, and every
//! word of the table after it. It is held to the machine on words, which steps over bytes as the
//! proved one does, and to the machine on trees, which knows terms only.

#[path = "../../second/tests/common/mod.rs"]
mod common;

use std::collections::{BTreeMap, BTreeSet};
use std::io::Write;

use common::{countdown, image_of, pattern, A};
use second::assemble::{assemble, assemble_with_items};
use second::damage::{damaged, hand_made, spoiled_items};
use second::generate::{self, Profile};
use second::random::Random;
use second::terms::{Arithmetic, Program, Statement, Type};
use second::{ARGUMENTS_DIFFER, EXITED, FUEL_SPENT, ROOM_SPENT, TABLE_TOO_LARGE};

/// From it, all programs, arguments and damages are made.
const SEED: u64 = 53;
/// The smallest integers, and those at the edges of 32, 63 and 64 bits.
const EDGES: [u64; 9] =
    [0, 1, 2, (1 << 32) - 1, 1 << 32, (1 << 63) - 1, 1 << 63, u64::MAX - 1, u64::MAX];
/// Fuel that is more than most programs need, and with which those without an end are soon done.
const LARGE: u32 = 20_000;
/// Most words of a table that a run takes.
const MOST_WORDS: usize = 8_000;
/// Words of the tables that every program is run on.
const TABLES: [usize; 6] = [0, 1, 2, 1_024, MOST_WORDS, MOST_WORDS + 1];
/// Words behind each table that are not lent with it. No block is larger.
const GUARD: usize = 64;
/// The refusal numbers of images.
const REFUSALS: std::ops::RangeInclusive<u8> = 1..=11;
/// The other numbers that a run answers.
const ENDINGS: [u8; 5] = [ARGUMENTS_DIFFER, TABLE_TOO_LARGE, EXITED, FUEL_SPENT, ROOM_SPENT];

/// Compares on one kind of run.
type Family = fn(&mut Comparison);

/// Compares runs, and counts how many were answered with each number.
struct Comparison {
    met: BTreeMap<u8, usize>,
    /// What stands in every table before a run.
    before: Vec<u64>,
    proved: Vec<u64>,
    second: Vec<u64>,
}

impl Comparison {
    fn new() -> Self {
        let before = pattern(MOST_WORDS + 1 + GUARD);
        Self { met: BTreeMap::new(), proved: before.clone(), second: before.clone(), before }
    }

    /// Compares the opinions on a run with a table of so many words, and counts it.
    fn run(&mut self, image: &[u8], args: &[u64], fuel: u32, words: usize) {
        let seen = words + GUARD;
        let (proved, second) = (&mut self.proved[..seen], &mut self.second[..seen]);
        proved.copy_from_slice(&self.before[..seen]);
        second.copy_from_slice(&self.before[..seen]);
        let answer = axcut::run(image, args, fuel, &mut proved[..words]);
        let expected = of_second(second::run(image, args, fuel, &mut second[..words]));
        let what = || format!("args {args:?}, fuel {fuel}, {words} words, image {image:?}");
        assert_eq!(answer, expected, "proved and second on {}", what());
        assert!(proved == second, "the tables of proved and second on {}", what());
        let trees = second::run_on_trees(image, args, fuel, words);
        assert_eq!(answer, of_second(trees.answer), "proved and trees on {}", what());
        assert!(proved[..trees.stored.len()] == trees.stored, "the words of trees on {}", what());
        let stored = answer.words as usize;
        assert!(proved[stored..] == self.before[stored..seen], "words past those of {}", what());
        *self.met.entry(answer.number).or_default() += 1;
    }

    fn total(&self) -> usize {
        self.met.values().sum()
    }

    fn met(&self, number: u8) -> usize {
        self.met.get(&number).copied().unwrap_or(0)
    }

    /// Ends a family of runs: says what it gave, and adds it to all of them.
    fn add(&mut self, family: &str, given: Comparison) {
        given.say(family);
        for (number, met) in given.met {
            *self.met.entry(number).or_default() += met;
        }
    }

    /// Writes the counts where the test harness shows them, also of a test that passes.
    fn say(&self, family: &str) {
        let line = format!("{family}: {} runs, by number {:?}\n", self.total(), self.met);
        std::io::stderr().write_all(line.as_bytes()).expect("a place to write to");
    }
}

/// The second opinion's answer, field by field.
fn of_second(answer: second::Answer) -> axcut::Answer {
    let second::Answer { number, steps, words, value } = answer;
    axcut::Answer { number, steps, words, value }
}

/// So many seeds of a profile, and few of those whose images are large.
fn seeds(profile: Profile, count: u64) -> std::ops::Range<u64> {
    let count = if profile == Profile::Large { count / 10 } else { count };
    SEED..SEED + count
}

/// The generated programs with their images.
fn programs(count: u64) -> impl Iterator<Item = (Program, Vec<u8>)> {
    let seeds = Profile::ALL.map(|profile| seeds(profile, count).map(move |seed| (seed, profile)));
    seeds.into_iter().flatten().map(|(seed, profile)| {
        let program = generate::program(seed, profile);
        let image = assemble(&program).expect("generated");
        (program, image)
    })
}

/// How many arguments the program takes.
fn argument_count(program: &Program) -> usize {
    program.labels[0].parameters.len()
}

/// So many integers, most of them at an edge.
fn arguments(count: usize, random: &mut Random) -> Vec<u64> {
    let argument = |random: &mut Random| match random.below(EDGES.len() + 2) {
        place if place < EDGES.len() => EDGES[place],
        _ => random.bits(),
    };
    (0..count).map(|_| argument(random)).collect()
}

/// Where the second opinion's run with large fuel ends.
fn end(image: &[u8], args: &[u64], words: usize) -> second::Answer {
    second::run(image, args, LARGE, &mut vec![0; words])
}

/// Words of tables for a run that stores so many where it has all the room.
fn tables(stored: u32) -> BTreeSet<usize> {
    let enough = stored as usize;
    let mut tables = BTreeSet::from(TABLES);
    tables.extend([enough.saturating_sub(1), enough]);
    tables
}

/// Fuels for a run that so ends with large fuel. The largest fuel is for runs that exit alone: it
/// would keep those without an end going for a minute.
fn fuels(end: second::Answer) -> BTreeSet<u32> {
    let mut fuels = BTreeSet::from([0, 1, 2, LARGE]);
    if matches!(end.number, EXITED | ROOM_SPENT) {
        fuels.extend([end.steps.saturating_sub(1), end.steps, end.steps + 1]);
    }
    if end.number == EXITED {
        fuels.insert(u32::MAX);
    }
    fuels
}

/// Every table, and around the words that are enough; with each, every fuel, and around where the
/// run ends.
fn with_every_limit(comparison: &mut Comparison, image: &[u8], args: &[u64]) {
    let stored = end(image, args, MOST_WORDS).words;
    for words in tables(stored) {
        for fuel in fuels(end(image, args, words)) {
            comparison.run(image, args, fuel, words);
        }
    }
}

fn well_typed(comparison: &mut Comparison) {
    let mut random = Random::new(SEED);
    for (program, image) in programs(260) {
        let count = argument_count(&program);
        let lists = if count == 0 { 1 } else { 4 };
        for _ in 0..lists {
            with_every_limit(comparison, &image, &arguments(count, &mut random));
        }
    }
}

/// One argument less or more, none, as many as an environment has, and far too many. That comes
/// before the table's size, and after the image's faults.
fn wrong_numbers_of_arguments(comparison: &mut Comparison) {
    let mut random = Random::new(SEED);
    for (program, image) in programs(40) {
        let right = argument_count(&program);
        let mut counts = BTreeSet::from([0, right.saturating_sub(1), right + 1, 32, 33, 1_000]);
        counts.remove(&right);
        for count in counts {
            let args = arguments(count, &mut random);
            for words in [0, MOST_WORDS, MOST_WORDS + 1] {
                comparison.run(&image, &args, LARGE, words);
            }
        }
    }
}

/// Runs a refused image with any arguments, fuel and table.
fn run_refused(comparison: &mut Comparison, image: &[u8], random: &mut Random) {
    let count = random.up_to(33);
    let args = arguments(count, random);
    let fuel = random.pick(&[0, 1, LARGE, u32::MAX]).expect("one of four");
    let words = random.pick(&TABLES).expect("one of six");
    comparison.run(image, &args, fuel, words);
}

/// Each refusal number at each of its places.
fn made_by_hand(comparison: &mut Comparison) {
    let mut random = Random::new(SEED);
    for case in hand_made().into_iter().filter(|case| !case.verdict.is_accepted()) {
        (0..8).for_each(|_| run_refused(comparison, &case.image, &mut random));
    }
}

/// One item made unlawful, at every place of some images.
fn damaged_at_every_place(comparison: &mut Comparison) {
    let mut random = Random::new(SEED);
    for profile in [Profile::Tiny, Profile::Typical] {
        for seed in seeds(profile, 20) {
            let assembled = assemble_with_items(&generate::program(seed, profile));
            for spoiled in spoiled_items(&assembled.expect("generated")) {
                run_refused(comparison, &spoiled.image, &mut random);
            }
        }
    }
}

/// One to three damages of any kind: most such images are refused, but some run, and elsewhere than
/// the undamaged one.
fn damaged_by_chance(comparison: &mut Comparison) {
    let mut random = Random::new(SEED);
    for (program, image) in programs(80) {
        for _ in 0..20 {
            let args = arguments(argument_count(&program), &mut random);
            let words = random.pick(&TABLES).expect("one of six");
            comparison.run(&damaged(&image, &mut random), &args, LARGE, words);
        }
    }
}

/// Each operation on each pair of edges.
fn operations_at_the_edges(comparison: &mut Comparison) {
    let compute = |operation| Statement::compute(operation, 0, 1, Statement::exit(2));
    let either = || [7, 8].map(|value| Statement::lit(value, Statement::exit(2)));
    let [below, not_below] = either();
    let [zero, not_zero] = either();
    let bodies = [
        compute(Arithmetic::Add),
        compute(Arithmetic::Sub),
        compute(Arithmetic::Mul),
        Statement::less(0, 1, below, not_below),
        Statement::ifz(1, zero, not_zero),
    ];
    let mut random = Random::new(SEED);
    let integers: Vec<u64> = EDGES.into_iter().chain((0..6).map(|_| random.bits())).collect();
    for body in bodies {
        let image = image_of(&[], &[(vec![Type::Ext; 2], body)]);
        for &first in &integers {
            for &second in &integers {
                comparison.run(&image, &[first, second], LARGE, 0);
            }
        }
    }
}

/// Each argument of each number of them.
fn every_place_of_an_argument(comparison: &mut Comparison) {
    let mut random = Random::new(SEED);
    for count in 1..=32 {
        for place in 0..count {
            let image = image_of(&[], &[(vec![Type::Ext; count], Statement::exit(place as u8))]);
            let args: Vec<u64> = (0..count).map(|_| random.bits()).collect();
            comparison.run(&image, &args, 1, 0);
        }
    }
}

#[test]
fn on_every_kind_of_run() {
    let families: [(&str, Family); 7] = [
        ("well typed", well_typed),
        ("wrong numbers of arguments", wrong_numbers_of_arguments),
        ("made by hand", made_by_hand),
        ("damaged at every place", damaged_at_every_place),
        ("damaged by chance", damaged_by_chance),
        ("operations at the edges", operations_at_the_edges),
        ("every place of an argument", every_place_of_an_argument),
    ];
    let mut all = Comparison::new();
    for (name, family) in families {
        let mut comparison = Comparison::new();
        family(&mut comparison);
        all.add(name, comparison);
    }
    all.say("all");
    assert!(all.total() >= 100_000, "only {} runs", all.total());
    for number in ENDINGS {
        assert!(all.met(number) >= 500, "{number} was met {} times", all.met(number));
    }
    for number in REFUSALS {
        assert!(all.met(number) >= 50, "{number} was met {} times", all.met(number));
    }
    let refusals: usize = REFUSALS.map(|number| all.met(number)).sum();
    assert!(refusals >= 500, "{refusals} images were refused");
}

#[test]
fn the_largest_fuel_on_programs_that_exit() {
    const COUNT: u64 = 70_000;
    let image = countdown();
    let mut comparison = Comparison::new();
    for words in [0, MOST_WORDS] {
        comparison.run(&image, &[COUNT, 5], u32::MAX, words);
        comparison.run(&A, &[], u32::MAX, words);
    }
    let exit = |steps, value| axcut::Answer { number: EXITED, steps, words: 0, value };
    let counted = axcut::run(&image, &[COUNT, 5], u32::MAX, &mut []);
    assert_eq!(counted, exit(6 * COUNT as u32 + 2, 5 + COUNT * (COUNT + 1) / 2));
    assert_eq!(axcut::run(&A, &[], u32::MAX, &mut []), exit(2, 7));
}
