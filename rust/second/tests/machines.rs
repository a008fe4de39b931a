//! The two machines: same answer and same table after every run.

mod common;

use common::{answer, image_of, pattern};
use second::assemble::assemble;
use second::generate::{self, Profile};
use second::random::Random;
use second::terms::{Arithmetic, Statement, Type};
use second::{run, run_on_trees, Answer};

/// Runs both machines, asserts that they agree on the answer and on every word of the table, and
/// gives the answer.
fn agreed(image: &[u8], args: &[u64], fuel: u32, words: usize) -> Answer {
    let mut table = pattern(words);
    let answer = run(image, args, fuel, &mut table);
    let trees = run_on_trees(image, args, fuel, words);
    assert_eq!(answer, trees.answer, "args {args:?} fuel {fuel} words {words} of {image:?}");
    assert_eq!(answer.words as usize, trees.stored.len());
    let mut expected = pattern(words);
    expected[..trees.stored.len()].copy_from_slice(&trees.stored);
    assert!(table == expected, "args {args:?} fuel {fuel} words {words} of {image:?}");
    answer
}

/// Fuels and tables around where the run with much of both ends.
fn limits_around(end: Answer, random: &mut Random) -> Vec<(u32, usize)> {
    let (steps, words) = (end.steps, end.words as usize);
    let any_words = random.below(words + 2);
    let any_steps = random.below(steps as usize + 2) as u32;
    vec![
        (steps, words),
        (steps.saturating_sub(1), words),
        (steps + 1, words),
        (steps, words.saturating_sub(1)),
        (steps + 5, words.saturating_sub(2)),
        (steps + 1, words + 1),
        (steps / 2, 8_000),
        (steps + 1, any_words),
        (any_steps, any_words),
        (steps + 5, random.below(3)),
        (random.below(3) as u32, random.below(3)),
        (random.below(3) as u32, 8_000),
        (steps, 8_001),
    ]
}

#[test]
fn on_generated_programs() {
    let mut random = Random::new(37);
    let mut runs = 0;
    let mut ends = [0; 3];
    for profile in Profile::ALL {
        let count = if profile == Profile::Large { 60 } else { 320 };
        for seed in 0..count {
            let program = generate::program(seed, profile);
            let image = assemble(&program).expect("generated");
            let args = generate::arguments(&program, &mut random);
            let end = agreed(&image, &args, 3_000, 1_024);
            ends[usize::from(end.number) - 40] += 1;
            runs += 1;
            for (fuel, words) in limits_around(end, &mut random) {
                agreed(&image, &args, fuel, words);
                runs += 1;
            }
        }
    }
    assert!(runs >= 20_000, "{runs}");
    assert!(ends.iter().all(|&end| end >= 200), "{ends:?}");
}

#[test]
fn on_full_tables() {
    let mut random = Random::new(41);
    let mut full = 0;
    for seed in 0..150 {
        let program = generate::program(seed, Profile::TableFilling);
        let image = assemble(&program).expect("generated");
        let args = generate::arguments(&program, &mut random);
        let end = agreed(&image, &args, 20_000, 8_000);
        full += usize::from(end.number == 42);
    }
    assert!(full >= 50, "{full}");
}

#[test]
fn on_many_arguments_of_one_program() {
    let mut random = Random::new(43);
    for seed in 0..60 {
        let program = generate::program(seed, Profile::Typical);
        let image = assemble(&program).expect("generated");
        for _ in 0..10 {
            let args = generate::arguments(&program, &mut random);
            agreed(&image, &args, 500, 256);
        }
        let none = program.labels[0].parameters.is_empty();
        let expected = if none { 41 } else { 20 };
        assert_eq!(agreed(&image, &[], 0, 0).number, expected);
    }
}

/// The exact end: one step less is fuel spent, one more is the same answer.
#[test]
fn fuel_around_the_exact_end() {
    let mut exits = 0;
    for seed in 0..300 {
        let program = generate::program(seed, Profile::Looping);
        let image = assemble(&program).expect("generated");
        let args = vec![3; program.labels[0].parameters.len()];
        let end = agreed(&image, &args, 2_000, 1_024);
        if end.number != 40 {
            continue;
        }
        exits += 1;
        let (steps, words) = (end.steps, end.words as usize);
        assert_eq!(agreed(&image, &args, steps, words), end);
        assert_eq!(agreed(&image, &args, steps + 1, words), end);
        assert_eq!(agreed(&image, &args, u32::MAX, 8_000), end);
        let short = agreed(&image, &args, steps - 1, words);
        assert_eq!((short.number, short.steps, short.value), (41, steps - 1, 0));
        if words > 0 {
            let cramped = agreed(&image, &args, steps, words - 1);
            assert_eq!((cramped.number, cramped.value), (42, 0));
            assert!(cramped.steps < steps && cramped.words < end.words);
        }
    }
    assert!(exits >= 100, "{exits}");
}

#[test]
fn the_largest_fuel_on_a_program_that_exits() {
    assert_eq!(agreed(&common::A, &[], u32::MAX, 0), answer(40, 2, 0, 7));
}

fn computed(operation: Arithmetic, first: u64, second: u64) -> u64 {
    let body = Statement::compute(operation, 0, 1, Statement::exit(2));
    let image = image_of(&[], &[(vec![Type::Ext, Type::Ext], body)]);
    let end = agreed(&image, &[first, second], 2, 0);
    assert_eq!((end.number, end.steps), (40, 2));
    end.value
}

#[test]
fn results_are_taken_modulo_2_to_the_64() {
    const TOP: u64 = 1 << 63;
    assert_eq!(computed(Arithmetic::Add, u64::MAX, 1), 0);
    assert_eq!(computed(Arithmetic::Add, u64::MAX, u64::MAX), u64::MAX - 1);
    assert_eq!(computed(Arithmetic::Add, TOP, TOP), 0);
    assert_eq!(computed(Arithmetic::Sub, 0, 1), u64::MAX);
    assert_eq!(computed(Arithmetic::Sub, 5, 9), u64::MAX - 3);
    assert_eq!(computed(Arithmetic::Sub, 9, 5), 4);
    assert_eq!(computed(Arithmetic::Mul, u64::MAX, u64::MAX), 1);
    assert_eq!(computed(Arithmetic::Mul, 1 << 32, 1 << 32), 0);
    assert_eq!(computed(Arithmetic::Mul, TOP, 3), TOP);
}

#[test]
fn less_compares_unsigned_and_first_below_second() {
    let body = Statement::less(
        0,
        1,
        Statement::lit(1, Statement::exit(2)),
        Statement::lit(2, Statement::exit(2)),
    );
    let image = image_of(&[], &[(vec![Type::Ext, Type::Ext], body)]);
    let below = |first, second| agreed(&image, &[first, second], 9, 0).value == 1;
    assert!(below(0, 1) && below(1, u64::MAX) && below((1 << 63) - 1, 1 << 63));
    assert!(!below(1, 0) && !below(u64::MAX, 1) && !below(1 << 63, (1 << 63) - 1));
    assert!(!below(7, 7) && !below(0, 0) && !below(u64::MAX, u64::MAX));
}

#[test]
fn ifz_takes_the_first_clause_for_zero_only() {
    let body = Statement::ifz(
        0,
        Statement::lit(1, Statement::exit(1)),
        Statement::lit(2, Statement::exit(1)),
    );
    let image = image_of(&[], &[(vec![Type::Ext], body)]);
    let value = |argument| agreed(&image, &[argument], 9, 0).value;
    assert_eq!(value(0), 1);
    for argument in [1, 256, 1 << 32, 1 << 63, u64::MAX] {
        assert_eq!(value(argument), 2);
    }
}

/// The words of each kind of value: an integer, a producer with and without a block, a consumer
/// with and without a block.
#[test]
fn the_words_of_every_kind_of_value() {
    let symbols = vec![vec![], vec![Type::Ext, Type::Ext]];
    let all = vec![Type::Ext, Type::Prd(0), Type::Prd(0), Type::Cns(1), Type::Cns(1)];
    let signatures = [symbols, vec![], vec![all]];
    // The entry is three integers: x, y, z.
    let body = Statement::let_(2, 0, Statement::lit(0, Statement::exit(1)));
    let body = Statement::new(1, 1, vec![], Statement::substitute(&[0, 1, 2, 3, 4], body));
    let body = Statement::substitute(&[1, 2, 3, 4, 0], body);
    let body = Statement::new(1, 0, vec![], body);
    let body = Statement::let_(0, 1, body);
    let body = Statement::substitute(&[0, 0, 3, 1, 2], body);
    let body = Statement::let_(0, 0, body);
    let image = image_of(&signatures, &[(vec![Type::Ext; 3], body)]);
    assert_eq!(common::verdict(&image), common::accepted(&image));
    let mut table = pattern(20);
    let end = run(&image, &[11, 22, 33], 100, &mut table);
    assert_eq!((end.number, end.steps, end.words), (40, 10, 16));
    // Three signatures are 1, 7, 1 and 12 bytes, the label's count and list 8.
    let body_at = 3 + 29 + 2;
    // let 0 0: 3 bytes; substitute: 7; let 0 1: 3; new: 4; substitute: 7.
    let (first_new, second_new) = (body_at + 13, body_at + 24);
    assert_eq!(table[..4], [0, 22, 0, 33]);
    assert_eq!(table[4..6], [0, 11]);
    assert_eq!(table[6..16], [0, 11, 0, 0, 0, 1, 0, first_new, 4, second_new]);
    assert_eq!(table[16..], pattern(20)[16..]);
}
