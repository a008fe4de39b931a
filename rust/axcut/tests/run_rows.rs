//! Document 01, "Images on either side of a line": every row through the run, and the lines under
//! "Also run". Of every run the answer is held to the row, and the table to it word for word.

#[path = "../../second/tests/common/mod.rs"]
mod common;

use axcut::Answer;
use common::{image_of, nested, pattern, with_bytes, A, B, C};
use second::terms::{Statement, Type};

/// Runs on a table of a pattern; gives the answer and the words it says are stored, after seeing
/// that all other words kept their values.
fn ran(image: &[u8], args: &[u64], fuel: u32, words: usize) -> (Answer, Vec<u64>) {
    let mut table = pattern(words);
    let answer = axcut::run(image, args, fuel, &mut table);
    let stored = answer.words as usize;
    assert_eq!(table[stored..], pattern(words)[stored..]);
    table.truncate(stored);
    (answer, table)
}

/// The answer and the words stored.
fn stores(number: u8, steps: u32, value: u64, stored: &[u64]) -> (Answer, Vec<u64>) {
    let words = stored.len() as u32;
    (Answer { number, steps, words, value }, stored.to_vec())
}

/// The answer of a run that stores nothing.
fn ends(number: u8, steps: u32, value: u64) -> (Answer, Vec<u64>) {
    stores(number, steps, value, &[])
}

/// The answer of a refused run.
fn refused(number: u8) -> (Answer, Vec<u64>) {
    ends(number, 0, 0)
}

/// Runs an image without arguments that the check refuses.
fn ran_refused(image: &[u8]) -> (Answer, Vec<u64>) {
    ran(image, &[], 100, 16)
}

#[test]
fn empty_input_is_1() {
    assert_eq!(ran_refused(&[]), refused(1));
    assert_eq!(ran(&[], &[], 0, 0), refused(1));
}

/// As the program runs it: with 1,024 words and fuel 100,000.
#[test]
fn a_exits_with_7() {
    assert_eq!(ran(&A, &[], 100_000, 1_024), ends(40, 2, 7));
}

#[test]
fn a_with_byte_0_as_02_is_2() {
    assert_eq!(ran_refused(&with_bytes(&A, 0, &[2])), refused(2));
}

#[test]
fn a_with_byte_4_as_00_is_4() {
    assert_eq!(ran_refused(&with_bytes(&A, 4, &[0])), refused(4));
}

#[test]
fn a_with_byte_9_as_07_is_6() {
    assert_eq!(ran_refused(&with_bytes(&A, 9, &[7])), refused(6));
}

#[test]
fn a_with_byte_19_as_04_or_02_is_3() {
    assert_eq!(ran_refused(&with_bytes(&A, 19, &[4])), refused(3));
    assert_eq!(ran_refused(&with_bytes(&A, 19, &[2])), refused(3));
}

#[test]
fn a_with_byte_22_as_01_is_7() {
    assert_eq!(ran_refused(&with_bytes(&A, 22, &[1])), refused(7));
}

#[test]
fn a_with_bytes_20_to_22_as_00_is_8() {
    assert_eq!(ran_refused(&with_bytes(&A, 20, &[0, 0, 0])), refused(8));
}

#[test]
fn a_with_a_byte_added_and_counted_is_11() {
    let mut image = with_bytes(&A, 2, &[0x15]);
    image.push(0);
    assert_eq!(ran_refused(&image), refused(11));
}

#[test]
fn a_with_fuel_2_exits_with_7() {
    assert_eq!(ran(&A, &[], 2, 0), ends(40, 2, 7));
    assert_eq!(ran(&A, &[], 2, 16), ends(40, 2, 7));
}

#[test]
fn a_with_fuel_1_spends_it() {
    assert_eq!(ran(&A, &[], 1, 0), ends(41, 1, 0));
    assert_eq!(ran(&A, &[], 1, 16), ends(41, 1, 0));
}

#[test]
fn b_with_2_words_stores_them_and_exits_with_9() {
    assert_eq!(ran(&B, &[5, 9], 3, 2), stores(40, 3, 9, &[0, 9]));
}

#[test]
fn b_with_1_word_finds_no_room() {
    assert_eq!(ran(&B, &[5, 9], 3, 1), ends(42, 0, 0));
}

#[test]
fn b_with_byte_23_or_22_as_01_is_9() {
    assert_eq!(ran(&with_bytes(&B, 23, &[1]), &[5, 9], 3, 2), refused(9));
    assert_eq!(ran(&with_bytes(&B, 22, &[1]), &[5, 9], 3, 2), refused(9));
}

#[test]
fn b_with_byte_19_as_00_exits_with_5_and_stores_nothing() {
    assert_eq!(ran(&with_bytes(&B, 19, &[0]), &[5, 9], 3, 2), ends(40, 3, 5));
}

#[test]
fn c_exits_with_the_captured_9() {
    assert_eq!(ran(&C, &[5, 9], 3, 2), stores(40, 3, 9, &[0, 9]));
}

#[test]
fn c_with_byte_18_as_02_is_8() {
    assert_eq!(ran(&with_bytes(&C, 18, &[2]), &[5, 9], 3, 2), refused(8));
}

#[test]
fn b_with_one_argument_is_20() {
    assert_eq!(ran(&B, &[5], 3, 2), refused(20));
}

#[test]
fn b_with_no_argument_or_three_is_20() {
    assert_eq!(ran(&B, &[], 3, 2), refused(20));
    assert_eq!(ran(&B, &[5, 9, 1], 3, 2), refused(20));
}

/// Label 0 with 31 integers: one lit makes 32 entries, which is the most.
#[test]
fn width_32_runs() {
    let image = image_of(&[], &[(vec![Type::Ext; 31], Statement::lit(8, Statement::exit(31)))]);
    assert_eq!(ran(&image, &[1; 31], 2, 4), ends(40, 2, 8));
}

#[test]
fn width_33_is_5() {
    let image = image_of(&[], &[(vec![Type::Ext; 32], Statement::lit(8, Statement::exit(31)))]);
    assert_eq!(ran(&image, &[1; 32], 2, 4), refused(5));
}

/// With 3 the run goes down to the innermost clause; with 0 it takes the outermost exit.
#[test]
fn depth_48_runs() {
    let image = image_of(&[], &[(vec![Type::Ext], nested(48, Statement::exit(0)))]);
    assert_eq!(ran(&image, &[3], 49, 4), ends(40, 49, 3));
    assert_eq!(ran(&image, &[0], 49, 4), ends(40, 2, 0));
}

#[test]
fn depth_49_is_10() {
    let image = image_of(&[], &[(vec![Type::Ext], nested(49, Statement::exit(0)))]);
    assert_eq!(ran(&image, &[3], 99, 4), refused(10));
}

/// Fuel is tested before room: B's let would find none.
#[test]
fn fuel_0_is_spent_at_once() {
    assert_eq!(ran(&A, &[], 0, 0), ends(41, 0, 0));
    assert_eq!(ran(&B, &[5, 9], 0, 0), ends(41, 0, 0));
    assert_eq!(ran(&B, &[5, 9], 0, 1), ends(41, 0, 0));
    assert_eq!(ran(&C, &[5, 9], 0, 8_000), ends(41, 0, 0));
}

#[test]
fn a_table_of_8000_words_is_taken() {
    assert_eq!(ran(&A, &[], 2, 8_000), ends(40, 2, 7));
    assert_eq!(ran(&B, &[5, 9], 3, 8_000), stores(40, 3, 9, &[0, 9]));
    assert_eq!(ran(&C, &[5, 9], 3, 8_000), stores(40, 3, 9, &[0, 9]));
}

#[test]
fn a_table_of_8001_words_is_21() {
    assert_eq!(ran(&A, &[], 0, 8_001), refused(21));
    assert_eq!(ran(&B, &[5, 9], 3, 8_001), refused(21));
    assert_eq!(ran(&C, &[5, 9], 3, 8_001), refused(21));
}

#[test]
fn the_image_is_tested_before_the_arguments_and_they_before_the_table() {
    assert_eq!(ran(&with_bytes(&B, 22, &[1]), &[5], 3, 8_001), refused(9));
    assert_eq!(ran(&B, &[5], 3, 8_001), refused(20));
}
