//! The paper's example of section 3: the product of a list, with early return at a zero.

mod common;

use common::{accepted, answer, image_of, verdict};
use second::terms::{Arithmetic, Statement, Type};
use second::{run, run_on_trees};

const LIST: u8 = 0;
const CONT: u8 = 1;

/// `loop` of the example. Environment: h, k, l.
fn loop_body() -> Statement {
    let nil = Statement::lit(1, Statement::substitute(&[2, 1], Statement::invoke(0)));
    let early = Statement::lit(0, Statement::substitute(&[4, 0], Statement::invoke(0)));
    let ret = Statement::substitute(&[3, 1], Statement::invoke(0));
    let ret = Statement::compute(Arithmetic::Mul, 2, 0, ret);
    let next = Statement::substitute(&[0, 2, 1], Statement::jump(2));
    let next = Statement::new(CONT, 2, vec![ret], next);
    let next = Statement::substitute(&[0, 3, 1, 2], next);
    let cons = Statement::ifz(2, early, next);
    Statement::switch(LIST, vec![nil, cons])
}

/// An entry that makes a list of its arguments and a consumer that exits, then jumps to `mult`.
fn entry(length: u8) -> Statement {
    let jump = Statement::new(
        CONT,
        0,
        vec![Statement::exit(0)],
        Statement::substitute(&[1, 0], Statement::jump(1)),
    );
    let build = (0..length).fold(jump, |build, _| Statement::let_(LIST, 1, build));
    Statement::let_(LIST, 0, build)
}

fn product_image(length: u8) -> Vec<u8> {
    let (list, cont) = (Type::Prd(LIST), Type::Cns(CONT));
    let signatures = [vec![vec![], vec![Type::Ext, list]], vec![vec![Type::Ext]]];
    let mult = Statement::substitute(&[0, 0, 1], Statement::jump(2));
    let labels = [
        (vec![Type::Ext; usize::from(length)], entry(length)),
        (vec![cont, list], mult),
        (vec![cont, cont, list], loop_body()),
    ];
    image_of(&signatures, &labels)
}

#[test]
fn the_product_of_a_list() {
    let image = product_image(4);
    assert_eq!(verdict(&image), accepted(&image));
    let end = run(&image, &[2, 3, 5, 7], 1_000, &mut [0; 64]);
    assert_eq!((end.number, end.value), (40, 210));
    // Four cons of two fields and four consumers of two captures.
    assert_eq!(end.words, 4 * 4 + 4 * 4);
    assert_eq!(run_on_trees(&image, &[2, 3, 5, 7], 1_000, 64).answer, end);
}

#[test]
fn early_return_at_a_zero() {
    let image = product_image(4);
    let end = run(&image, &[2, 0, 5, 7], 1_000, &mut [0; 64]);
    assert_eq!((end.number, end.value), (40, 0));
    assert_eq!(end.words, 4 * 4 + 4);
    let sooner = run(&image, &[0, 2, 5, 7], 1_000, &mut [0; 64]);
    assert_eq!((sooner.value, sooner.words), (0, 4 * 4));
    assert!(sooner.steps < end.steps);
}

/// Steps counted by hand: let nil; new; substitute; jump; substitute; jump; switch; lit;
/// substitute; invoke; exit.
#[test]
fn the_product_of_nothing_takes_11_steps() {
    let image = product_image(0);
    assert_eq!(run(&image, &[], 11, &mut []), answer(40, 11, 0, 1));
    assert_eq!(run(&image, &[], 10, &mut []), answer(41, 10, 0, 0));
    assert_eq!(run_on_trees(&image, &[], 11, 0).answer, answer(40, 11, 0, 1));
}
