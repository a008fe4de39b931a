//! Document 01, "What students hand in": for each fault an image that tells it from what is right.

mod common;

use common::*;
use second::terms::{Statement, Type};
use second::{run, run_on_trees};

/// Signature 0 has one symbol, m0(ext).
fn one_integer() -> Vec<Vec<Type>> {
    vec![vec![Type::Ext]]
}

#[test]
fn captures_before_parameters_would_give_5() {
    assert_eq!(run(&C, &[5, 9], 3, &mut [0; 2]).value, 9);
    assert_eq!(run_on_trees(&C, &[5, 9], 3, 2).answer.value, 9);
    let first_is_the_parameter = with_bytes(&C, 25, &[0]);
    assert_eq!(run(&first_is_the_parameter, &[5, 9], 3, &mut [0; 2]).value, 5);
}

/// The clause's environment is an integer, then the captured consumer: invoke must find the
/// consumer last.
#[test]
fn captures_before_parameters_would_refuse_a_captured_consumer() {
    let inner = Statement::new(0, 1, vec![Statement::invoke(0)], Statement::invoke(0));
    let outer = Statement::new(0, 0, vec![Statement::exit(0)], inner);
    let image = image_of(&[one_integer()], &[(vec![Type::Ext], outer)]);
    assert_eq!(verdict(&image), accepted(&image));
    let mut table = pattern(4);
    assert_eq!(run(&image, &[77], 9, &mut table), answer(40, 5, 2, 77));
    // One capture: the outer consumer, which captured nothing and was made at the body's start.
    let outer_new = 3 + 5 + 4 + 2;
    assert_eq!(table[..2], [0, outer_new]);
    assert_eq!(table[2..], pattern(4)[2..]);
}

#[test]
fn never_reading_a_symbol_byte_would_accept_swapped_clauses() {
    let swapped = with_bytes(&with_bytes(&B, 23, &[1]), 29, &[0]);
    assert_eq!(verdict(&swapped), (9, 23));
    let second_only = with_bytes(&B, 29, &[0]);
    assert_eq!(verdict(&second_only), (9, 29));
    let in_new = with_bytes(&C, 20, &[1]);
    assert_eq!(verdict(&in_new), (9, 20));
}

/// The integer is there, but a producer stands after it.
#[test]
fn letting_let_find_its_entries_anywhere_would_accept_this() {
    let symbols = vec![vec![], vec![Type::Ext]];
    let body = Statement::let_(0, 0, Statement::let_(0, 1, Statement::exit(0)));
    let image = image_of(&[symbols], &[(vec![Type::Ext, Type::Ext], body)]);
    let body_at = image.len() - 9;
    assert_eq!(verdict(&image), (8, body_at as u32 + 3));
}

#[test]
fn letting_invoke_ignore_spare_entries_would_accept_this() {
    let body = Statement::new(0, 0, vec![Statement::exit(0)], Statement::invoke(0));
    let exact = image_of(&[one_integer()], &[(vec![Type::Ext], body.clone())]);
    assert_eq!(verdict(&exact), accepted(&exact));
    let spare = image_of(&[one_integer()], &[(vec![Type::Ext, Type::Ext], body)]);
    assert_eq!(verdict(&spare), (8, spare.len() as u32 - 2));
}

#[test]
fn letting_jump_ignore_spare_entries_would_accept_this() {
    let labels = |entry: usize| {
        [(vec![Type::Ext; entry], Statement::jump(1)), (vec![Type::Ext], Statement::exit(0))]
    };
    let exact = image_of(&[], &labels(1));
    assert_eq!(verdict(&exact), accepted(&exact));
    let spare = image_of(&[], &labels(2));
    let jump_at = spare.len() - 5 - 2;
    assert_eq!(verdict(&spare), (8, jump_at as u32));
}

/// The literal is zero, so that no run reaches the second clause.
#[test]
fn checking_only_reached_clauses_would_accept_this() {
    let body = |unreached| Statement::lit(0, Statement::ifz(0, Statement::exit(0), unreached));
    let lawful = image_of(&[], &[(vec![], body(Statement::exit(0)))]);
    assert_eq!(verdict(&lawful), accepted(&lawful));
    let unlawful = image_of(&[], &[(vec![], body(Statement::exit(1)))]);
    assert_eq!(verdict(&unlawful), (7, unlawful.len() as u32 - 1));
    assert_eq!(run(&unlawful, &[], 9, &mut []), refused(7));
}

#[test]
fn checking_only_reached_labels_would_accept_this() {
    let labels = [(vec![Type::Ext], Statement::exit(0)), (vec![], Statement::exit(0))];
    let image = image_of(&[], &labels);
    assert_eq!(verdict(&image), (7, image.len() as u32 - 1));
}

#[test]
fn checking_only_clauses_of_a_built_symbol_would_accept_this() {
    let symbols = vec![vec![], vec![Type::Ext]];
    let clauses = vec![Statement::exit(0), Statement::exit(2)];
    let body = Statement::let_(0, 0, Statement::switch(0, clauses));
    let lawful =
        image_of(std::slice::from_ref(&symbols), &[(vec![Type::Ext, Type::Ext], body.clone())]);
    assert_eq!(verdict(&lawful), accepted(&lawful));
    let unlawful = image_of(&[symbols], &[(vec![Type::Ext], body)]);
    assert_eq!(verdict(&unlawful), (7, unlawful.len() as u32 - 1));
}

/// let with two fields after a let with one: five words are half a block too few.
#[test]
fn counting_the_refused_let_or_half_writing_its_block_would_show_here() {
    let symbols = vec![vec![Type::Ext], vec![Type::Ext, Type::Prd(0)]];
    let body = Statement::let_(0, 0, Statement::let_(0, 1, Statement::lit(3, Statement::exit(1))));
    let image = image_of(&[symbols], &[(vec![Type::Ext, Type::Ext], body)]);
    for words in 2..6 {
        let mut table = pattern(words);
        assert_eq!(run(&image, &[5, 9], 9, &mut table), answer(42, 1, 2, 0));
        assert_eq!(table[..2], [0, 9]);
        assert_eq!(table[2..], pattern(words)[2..]);
    }
    let mut table = pattern(7);
    assert_eq!(run(&image, &[5, 9], 9, &mut table), answer(40, 4, 6, 3));
    assert_eq!(table[..6], [0, 9, 0, 5, 0, 0]);
    assert_eq!(table[6..], pattern(7)[6..]);
}

/// The same for new, with three captures.
#[test]
fn counting_the_refused_new_or_half_writing_its_block_would_show_here() {
    let body =
        Statement::new(0, 3, vec![Statement::exit(3)], Statement::lit(4, Statement::exit(1)));
    let image = image_of(&[one_integer()], &[(vec![Type::Ext; 3], body)]);
    for words in 0..6 {
        let mut table = pattern(words);
        assert_eq!(run(&image, &[1, 2, 3], 9, &mut table), answer(42, 0, 0, 0));
        assert_eq!(table, pattern(words));
    }
    let mut table = pattern(6);
    let exact = run(&image, &[1, 2, 3], 2, &mut table);
    assert_eq!(exact, answer(41, 2, 6, 0));
    assert_eq!(table, [0, 1, 0, 2, 0, 3]);
}
