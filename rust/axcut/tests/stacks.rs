//! Small stacks: the proved check and run on a thread of 256 KiB, against the second opinion. The
//! images are made, and judged and run by the second opinion, on the test's own stack.

#[path = "../../second/tests/common/mod.rs"]
mod common;

use common::{countdown, image_of, lets_in_a_row, nested, news_in_a_row, on_small_stack, pattern};
use second::assemble::assemble;
use second::generate::{self, Profile};
use second::random::Random;
use second::terms::{Statement, Straight, Type};

/// Number, steps, words and value of a run.
type Fields = (u8, u32, u32, u64);

/// The proved check's verdict, given on a small stack.
fn verdict_on_small_stack(image: &[u8]) -> axcut::Verdict {
    let image = image.to_vec();
    on_small_stack(move || axcut::check(&image))
}

/// Both opinions agree, and give this number.
fn assert_number(image: &[u8], number: u8) {
    let verdict = verdict_on_small_stack(image);
    let second = second::check(image);
    assert_eq!((verdict.number, verdict.offset), (second.number, second.offset as usize));
    assert_eq!(verdict.number, number);
}

/// The proved run's answer, given on a small stack, and the table after it. The table is not on
/// that stack: it is the caller's.
fn run_on_small_stack(image: &[u8], args: &[u64], fuel: u32, words: usize) -> (Fields, Vec<u64>) {
    let (image, args, mut table) = (image.to_vec(), args.to_vec(), pattern(words));
    on_small_stack(move || {
        let axcut::Answer { number, steps, words, value } =
            axcut::run(&image, &args, fuel, &mut table);
        ((number, steps, words, value), table)
    })
}

/// What both opinions answer, after seeing that they agree on it and on every word of the table.
fn agreed(image: &[u8], args: &[u64], fuel: u32, words: usize) -> Fields {
    let (fields, table) = run_on_small_stack(image, args, fuel, words);
    let mut expected = pattern(words);
    let second::Answer { number, steps, words, value } =
        second::run(image, args, fuel, &mut expected);
    assert_eq!(fields, (number, steps, words, value));
    assert_eq!(table, expected);
    fields
}

/// Label 0 without parameters: these statements, then a literal and exit with it.
fn line(signatures: &[Vec<Vec<Type>>], straight: Vec<Straight>) -> Vec<u8> {
    let end = Statement::lit(7, Statement::exit(0));
    image_of(signatures, &[(vec![], Statement { straight, ..end })])
}

/// Label 0 with one integer: so many clauses in one another.
fn clauses(depth: usize) -> Vec<u8> {
    image_of(&[], &[(vec![Type::Ext], nested(depth, Statement::exit(0)))])
}

/// Label 0 with 32 integers: turns them round for ever.
fn widest_loop() -> Vec<u8> {
    let turned: Vec<u8> = (0..32).map(|position| (position + 1) % 32).collect();
    image_of(&[], &[(vec![Type::Ext; 32], Statement::substitute(&turned, Statement::jump(0)))])
}

/// A consumer of all 31 other entries, again and again, until the room is spent.
fn widest_blocks() -> Vec<u8> {
    let all: Vec<u8> = vec![0; 31];
    let again = Statement::new(0, 31, vec![], Statement::jump(1));
    let again = Statement::substitute(&all, again);
    let start = Statement::new(0, 0, vec![], Statement::jump(1));
    image_of(&[vec![]], &[(vec![], start), (vec![Type::Cns(0)], again)])
}

#[test]
fn of_8000_substitutes_in_a_row() {
    let image = line(&[], vec![Straight::Substitute(vec![]); 8_000]);
    assert_number(&image, 0);
    assert_eq!(agreed(&image, &[], 10_000, 0), (40, 8_002, 0, 7));
}

#[test]
fn of_5000_lets_in_a_row() {
    let (signatures, straight) = lets_in_a_row(5_000);
    let image = line(&signatures, straight);
    assert_number(&image, 0);
    assert_eq!(agreed(&image, &[], 10_000, 8_000), (42, 4_001, 8_000, 0));
}

#[test]
fn of_4000_news_in_a_row() {
    let (signatures, straight) = news_in_a_row(4_000);
    let image = line(&signatures, straight);
    assert_number(&image, 0);
    assert_eq!(agreed(&image, &[], 10_000, 7_999), (42, 4_000, 7_998, 0));
    assert_eq!(agreed(&image, &[], 10_000, 8_000), (40, 4_004, 8_000, 7));
}

#[test]
fn at_depth_48() {
    assert_number(&clauses(48), 0);
    assert_eq!(agreed(&clauses(48), &[9], 100, 8_000), (40, 49, 0, 9));
}

#[test]
fn at_depth_49_and_600() {
    assert_number(&clauses(49), 10);
    assert_number(&clauses(600), 10);
    assert_eq!(agreed(&clauses(600), &[9], 100, 8_000), (10, 0, 0, 0));
}

/// Every kind of clause down to depth 48, and long lines.
#[test]
fn of_deep_and_large_images() {
    for profile in [Profile::Deep, Profile::Large] {
        for seed in 0..40 {
            assert_number(&generate::image(seed, profile), 0);
        }
    }
}

#[test]
fn of_a_long_loop() {
    let count = 200_000;
    let sum = count * (count + 1) / 2;
    let steps = 6 * count as u32 + 2;
    assert_eq!(agreed(&countdown(), &[count, 0], u32::MAX, 8_000), (40, steps, 0, sum));
}

#[test]
fn of_the_widest_environment() {
    let args: Vec<u64> = (0..32).map(|place| u64::MAX - place).collect();
    assert_eq!(agreed(&widest_loop(), &args, 500_000, 8_000), (41, 500_000, 0, 0));
}

/// A block of 31 entries is 62 words, and 129 of them are 7,998.
#[test]
fn of_the_widest_blocks_until_the_room_is_spent() {
    let steps = 1 + 1 + 3 * 129 + 1;
    assert_eq!(agreed(&widest_blocks(), &[], 10_000, 8_000), (42, steps, 7_998, 0));
}

#[test]
fn of_runs_of_every_profile() {
    let mut random = Random::new(3);
    for profile in Profile::ALL {
        for seed in 0..40 {
            let program = generate::program(seed, profile);
            let args = generate::arguments(&program, &mut random);
            let image = assemble(&program).expect("generated");
            agreed(&image, &args, 20_000, 8_000);
        }
    }
}
