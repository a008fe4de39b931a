//! Document 01, "Images on either side of a line": every row, and the lines under "Also run".

mod common;

use common::*;
use second::terms::{Statement, Type};
use second::{lines, run, run_on_trees, Answer};

/// Runs on a table of a pattern, with both machines; gives the answer and the words stored, after
/// seeing that all other words kept their values.
fn run_both(image: &[u8], args: &[u64], fuel: u32, words: usize) -> (Answer, Vec<u64>) {
    let mut table = pattern(words);
    let answer = run(image, args, fuel, &mut table);
    let trees = run_on_trees(image, args, fuel, words);
    assert_eq!(answer, trees.answer);
    let stored = answer.words as usize;
    assert_eq!(table[..stored], trees.stored[..]);
    assert_eq!(table[stored..], pattern(words)[stored..]);
    (answer, trees.stored)
}

fn without_words(answer: Answer) -> (Answer, Vec<u64>) {
    (answer, vec![])
}

#[test]
fn empty_input_is_1_at_0() {
    assert_eq!(verdict(&[]), (1, 0));
    assert_eq!(run_both(&[], &[], 9, 9), without_words(refused(1)));
}

#[test]
fn a_is_accepted() {
    assert_eq!(verdict(&A), (0, 23));
}

#[test]
fn a_with_byte_0_as_02_is_2_at_0() {
    let image = with_bytes(&A, 0, &[2]);
    assert_eq!(verdict(&image), (2, 0));
    assert_eq!(run_both(&image, &[], 9, 9), without_words(refused(2)));
}

#[test]
fn a_with_byte_4_as_00_is_4_at_4() {
    let image = with_bytes(&A, 4, &[0]);
    assert_eq!(verdict(&image), (4, 4));
    assert_eq!(run_both(&image, &[], 9, 9), without_words(refused(4)));
}

#[test]
fn a_with_byte_9_as_07_is_6_at_9() {
    let image = with_bytes(&A, 9, &[7]);
    assert_eq!(verdict(&image), (6, 9));
    assert_eq!(run_both(&image, &[], 9, 9), without_words(refused(6)));
}

#[test]
fn a_with_byte_19_as_04_is_3_at_18() {
    let image = with_bytes(&A, 19, &[4]);
    assert_eq!(verdict(&image), (3, 18));
    assert_eq!(run_both(&image, &[], 9, 9), without_words(refused(3)));
}

#[test]
fn a_with_byte_19_as_02_is_3_at_22() {
    assert_eq!(verdict(&with_bytes(&A, 19, &[2])), (3, 22));
}

#[test]
fn a_with_byte_22_as_01_is_7_at_22() {
    let image = with_bytes(&A, 22, &[1]);
    assert_eq!(verdict(&image), (7, 22));
    assert_eq!(run_both(&image, &[], 9, 9), without_words(refused(7)));
}

#[test]
fn a_with_bytes_20_to_22_as_00_is_8_at_20() {
    let image = with_bytes(&A, 20, &[0, 0, 0]);
    assert_eq!(verdict(&image), (8, 20));
    assert_eq!(run_both(&image, &[], 9, 9), without_words(refused(8)));
}

#[test]
fn a_with_a_byte_added_and_counted_is_11_at_23() {
    let mut image = with_bytes(&A, 2, &[0x15]);
    image.push(0);
    assert_eq!(verdict(&image), (11, 23));
    assert_eq!(run_both(&image, &[], 9, 9), without_words(refused(11)));
}

#[test]
fn a_with_fuel_2_exits_with_7() {
    assert_eq!(run_both(&A, &[], 2, 0), without_words(answer(40, 2, 0, 7)));
    assert_eq!(run_both(&A, &[], 2, 16), without_words(answer(40, 2, 0, 7)));
}

#[test]
fn a_with_fuel_1_spends_it() {
    assert_eq!(run_both(&A, &[], 1, 0), without_words(answer(41, 1, 0, 0)));
}

#[test]
fn b_with_2_words_stores_them_and_exits_with_9() {
    assert_eq!(verdict(&B), accepted(&B));
    assert_eq!(run_both(&B, &[5, 9], 3, 2), (answer(40, 3, 2, 9), vec![0, 9]));
}

#[test]
fn b_with_1_word_finds_no_room() {
    assert_eq!(run_both(&B, &[5, 9], 3, 1), without_words(answer(42, 0, 0, 0)));
}

#[test]
fn b_with_byte_23_as_01_is_9_at_23() {
    let image = with_bytes(&B, 23, &[1]);
    assert_eq!(verdict(&image), (9, 23));
    assert_eq!(run_both(&image, &[5, 9], 3, 2), without_words(refused(9)));
}

#[test]
fn b_with_byte_22_as_01_is_9_at_22() {
    assert_eq!(verdict(&with_bytes(&B, 22, &[1])), (9, 22));
}

#[test]
fn b_with_byte_19_as_00_exits_with_5_and_stores_nothing() {
    let image = with_bytes(&B, 19, &[0]);
    assert_eq!(verdict(&image), accepted(&image));
    assert_eq!(run_both(&image, &[5, 9], 100, 2), without_words(answer(40, 3, 0, 5)));
}

#[test]
fn c_exits_with_the_captured_9() {
    assert_eq!(verdict(&C), accepted(&C));
    assert_eq!(run_both(&C, &[5, 9], 3, 2), (answer(40, 3, 2, 9), vec![0, 9]));
}

#[test]
fn c_with_byte_18_as_02_is_8_at_26() {
    let image = with_bytes(&C, 18, &[2]);
    assert_eq!(verdict(&image), (8, 26));
    assert_eq!(run_both(&image, &[5, 9], 3, 2), without_words(refused(8)));
}

#[test]
fn b_with_one_argument_is_20() {
    assert_eq!(run_both(&B, &[5], 3, 2), without_words(refused(20)));
    assert_eq!(run_both(&B, &[], 3, 2), without_words(refused(20)));
    assert_eq!(run_both(&B, &[5, 9, 1], 3, 2), without_words(refused(20)));
}

#[test]
fn the_program_writes_two_lines_for_a() {
    assert_eq!(lines(&A), "0 23\n40 2 0 7\n");
}

/// Label 0 with 31 integers: one lit makes 32 entries, which is the most.
#[test]
fn width_32_is_accepted_and_runs() {
    let image = image_of(&[], &[(vec![Type::Ext; 31], Statement::lit(8, Statement::exit(31)))]);
    assert_eq!(verdict(&image), accepted(&image));
    assert_eq!(run_both(&image, &[1; 31], 2, 0), without_words(answer(40, 2, 0, 8)));
}

#[test]
fn width_33_is_5_at_the_clause() {
    let image = image_of(&[], &[(vec![Type::Ext; 32], Statement::lit(8, Statement::exit(31)))]);
    let body = image.len() - 15;
    assert_eq!(verdict(&image), (5, (body + 10) as u32));
    assert_eq!(run_both(&image, &[1; 32], 2, 0), without_words(refused(5)));
}

#[test]
fn a_substitute_of_32_is_accepted_and_of_33_is_not() {
    let repeated = |count| Statement::substitute(&vec![0; count], Statement::exit(0));
    let widest = image_of(&[], &[(vec![Type::Ext], repeated(32))]);
    assert_eq!(verdict(&widest), accepted(&widest));
    assert_eq!(run_both(&widest, &[6], 2, 0), without_words(answer(40, 2, 0, 6)));
    let wider = image_of(&[], &[(vec![Type::Ext], repeated(33))]);
    assert_eq!(verdict(&wider), (4, 11));
}

#[test]
fn depth_48_is_accepted_and_runs() {
    let image = image_of(&[], &[(vec![Type::Ext], nested(48, Statement::exit(0)))]);
    assert_eq!(verdict(&image), accepted(&image));
    assert_eq!(run_both(&image, &[3], 49, 0), without_words(answer(40, 49, 0, 3)));
    assert_eq!(run_both(&image, &[0], 49, 0), without_words(answer(40, 2, 0, 0)));
}

/// Each ifz puts its first clause (5 bytes) and its own 5 before the second clause's statement.
#[test]
fn depth_49_is_10_at_the_clause() {
    let image = image_of(&[], &[(vec![Type::Ext], nested(49, Statement::exit(0)))]);
    let innermost = 10 + 48 * 10;
    assert_eq!(verdict(&image), (10, innermost as u32 + 3));
    assert_eq!(run_both(&image, &[3], 99, 0), without_words(refused(10)));
}

#[test]
fn fuel_0_is_spent_at_once() {
    assert_eq!(run_both(&A, &[], 0, 0), without_words(answer(41, 0, 0, 0)));
    assert_eq!(run_both(&B, &[5, 9], 0, 0), without_words(answer(41, 0, 0, 0)));
    assert_eq!(run_both(&C, &[5, 9], 0, 8_000), without_words(answer(41, 0, 0, 0)));
}

#[test]
fn a_table_of_8000_words_is_taken() {
    assert_eq!(run_both(&B, &[5, 9], 3, 8_000), (answer(40, 3, 2, 9), vec![0, 9]));
}

#[test]
fn a_table_of_8001_words_is_21() {
    assert_eq!(run_both(&B, &[5, 9], 3, 8_001), without_words(refused(21)));
    assert_eq!(run_both(&A, &[], 0, 8_001), without_words(refused(21)));
}
