//! Small stacks: the check, both machines and the reading of terms on a thread of 256 KiB. The
//! images are made on the test's own stack.

mod common;

use common::{
    accepted, answer, image_of, lets_in_a_row, nested, news_in_a_row, on_small_stack, pattern,
    verdict,
};
use second::assemble::assemble;
use second::decode::decode;
use second::generate::{self, Profile};
use second::random::Random;
use second::terms::{Arithmetic, Statement, Straight, Type};
use second::typing::is_image_of_well_typed;
use second::{run, run_on_trees};

/// The image is accepted by the check and by the typing of its terms.
fn assert_accepted(image: &[u8]) {
    assert_eq!(verdict(image), accepted(image));
    assert!(is_image_of_well_typed(image));
}

/// Label 0 without parameters: these statements, then a jump to the same label.
fn line(signatures: &[Vec<Vec<Type>>], straight: Vec<Straight>) -> Vec<u8> {
    image_of(signatures, &[(vec![], Statement { straight, ..Statement::jump(0) })])
}

fn line_of_substitutes() -> Vec<u8> {
    line(&[], vec![Straight::Substitute(vec![]); 8_000])
}

#[test]
fn check_of_8000_substitutes_in_a_row() {
    let image = line_of_substitutes();
    on_small_stack(move || assert_accepted(&image));
}

#[test]
fn check_of_5000_lets_in_a_row() {
    let (signatures, straight) = lets_in_a_row(5_000);
    let image = line(&signatures, straight);
    on_small_stack(move || {
        assert_accepted(&image);
        assert_eq!(run(&image, &[], u32::MAX, &mut pattern(8_000)), answer(42, 4_001, 8_000, 0));
    });
}

#[test]
fn check_of_4000_news_in_a_row() {
    let (signatures, straight) = news_in_a_row(4_000);
    let image = line(&signatures, straight);
    on_small_stack(move || {
        assert_accepted(&image);
        assert_eq!(run(&image, &[], u32::MAX, &mut pattern(7_999)), answer(42, 4_000, 7_998, 0));
    });
}

#[test]
fn check_at_depth_48() {
    let image = image_of(&[], &[(vec![Type::Ext], nested(48, Statement::exit(0)))]);
    on_small_stack(move || assert_accepted(&image));
}

#[test]
fn check_at_depth_600_stops_at_49() {
    let image = image_of(&[], &[(vec![Type::Ext], nested(600, Statement::exit(0)))]);
    on_small_stack(move || {
        assert_eq!(verdict(&image), (10, 10 + 48 * 10 + 3));
        assert!(!is_image_of_well_typed(&image));
    });
}

/// Every kind of clause down to depth 48, and long lines.
#[test]
fn check_of_deep_and_large_images() {
    for profile in [Profile::Deep, Profile::Large] {
        let images: Vec<_> = (0..40).map(|seed| generate::image(seed, profile)).collect();
        on_small_stack(move || {
            for image in images {
                assert_accepted(&image);
                let program = decode(&image).expect("accepted");
                assert_eq!(assemble(&program), Some(image));
            }
        });
    }
}

#[test]
fn run_of_8000_substitutes_in_a_row() {
    let image = line_of_substitutes();
    on_small_stack(move || {
        assert_eq!(run(&image, &[], 100_000, &mut []), answer(41, 100_000, 0, 0));
        assert_eq!(run_on_trees(&image, &[], 100_000, 0).answer, answer(41, 100_000, 0, 0));
    });
}

#[test]
fn run_at_depth_48() {
    let image = image_of(&[], &[(vec![Type::Ext], nested(48, Statement::exit(0)))]);
    on_small_stack(move || {
        assert_eq!(run(&image, &[9], 100, &mut []), answer(40, 49, 0, 9));
        assert_eq!(run_on_trees(&image, &[9], 100, 0).answer, answer(40, 49, 0, 9));
    });
}

/// Consumers of one capture each: 4,000 blocks in one another fill 8,000 words, and are dropped at
/// once in the end.
#[test]
fn run_on_trees_of_4000_nested_blocks() {
    let again = Statement::new(0, 1, vec![Statement::invoke(0)], Statement::jump(1));
    let start = Statement::new(0, 0, vec![Statement::jump(0)], Statement::jump(1));
    let image = image_of(&[vec![vec![]]], &[(vec![], start), (vec![Type::Cns(0)], again)]);
    on_small_stack(move || {
        assert_accepted(&image);
        let trees = run_on_trees(&image, &[], 100_000, 8_000);
        assert_eq!((trees.answer.number, trees.answer.words), (42, 8_000));
        let mut table = pattern(8_000);
        assert_eq!(run(&image, &[], 100_000, &mut table), trees.answer);
        assert_eq!(table, trees.stored);
    });
}

/// A list of 3,999 blocks that a substitute drops in the middle of the run.
#[test]
fn run_on_trees_drops_a_long_list_in_the_middle() {
    // list, count, one, count less one
    let more = Statement::substitute(&[1, 0], Statement::jump(1));
    let more = Statement::substitute(&[3, 0], Statement::let_(0, 1, more));
    let more = Statement::compute(Arithmetic::Sub, 1, 2, more);
    let done = Statement::substitute(&[1], Statement::lit(6, Statement::exit(1)));
    let body = Statement::ifz(1, done, Statement::lit(1, more));
    let start = Statement::let_(0, 0, Statement::lit(3_999, Statement::jump(1)));
    let labels = [(vec![], start), (vec![Type::Prd(0), Type::Ext], body)];
    let image = image_of(&[vec![vec![], vec![Type::Prd(0)]]], &labels);
    on_small_stack(move || {
        assert_accepted(&image);
        let end = run_on_trees(&image, &[], u32::MAX, 8_000).answer;
        assert_eq!((end.number, end.words, end.value), (40, 7_998, 6));
        assert_eq!(run(&image, &[], u32::MAX, &mut pattern(8_000)), end);
    });
}

#[test]
fn runs_of_generated_images() {
    for profile in Profile::ALL {
        let programs: Vec<_> = (0..20).map(|seed| generate::program(seed, profile)).collect();
        let images: Vec<_> = programs
            .iter()
            .map(|program| {
                let args = generate::arguments(program, &mut Random::new(1));
                (assemble(program).expect("generated"), args)
            })
            .collect();
        on_small_stack(move || {
            for (image, args) in images {
                let answer = run(&image, &args, 5_000, &mut pattern(4_000));
                assert_eq!(run_on_trees(&image, &args, 5_000, 4_000).answer, answer);
            }
        });
    }
}
