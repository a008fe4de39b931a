//! The readings of document 01's open points: 1 to 9, 11 and 13, each as cases.

mod common;

use common::*;
use second::assemble::assemble;
use second::decode::decode;
use second::terms::{Label, Program, Statement, Straight, Type};
use second::typing::{is_image_of_well_typed, is_well_typed};
use second::{lines, run, run_on_trees};

/// No signature; label 0 has one integer.
const ONE: &[u8] = &[0, 1, 1, 2, 0];
/// Signature 0 with m0() and m1(ext); label 0 has two integers.
const PAIR: &[u8] = &[1, 2, 0, 1, 2, 0, 1, 2, 2, 0, 2, 0];
/// `extern lit 0` without its clause.
const LIT: &[u8] = &[2, 0, 0, 0, 0, 0, 0, 0, 0, 0];

/// Signature 0 with m0() and m1(ext), label 0 with so many integers.
fn wide(integers: u8) -> Vec<u8> {
    let mut head = vec![1, 2, 0, 1, 2, 0, 1, integers];
    head.extend([2, 0].repeat(usize::from(integers)));
    head
}

/// `extern ifz 0` around these bytes so many times; each puts 5 bytes before them.
fn deep(times: usize, inside: &[u8]) -> Vec<u8> {
    (0..times).fold(inside.to_vec(), |inside, _| {
        let length = (inside.len() as u16).to_be_bytes();
        [&[2, 4, 0], &length[..], &inside, &[0, 3, 2, 6, 0]].concat()
    })
}

/// The verdict on one body under this head, its offset counted from the body's first byte.
fn in_body(head: &[u8], body: &[u8]) -> (u8, i64) {
    let (number, offset) = verdict(&image(head, &[body]));
    (number, i64::from(offset) - body_at(head) as i64)
}

#[test]
fn point_1_a_wrong_clause_count_is_9_and_never_4() {
    assert_eq!(in_body(PAIR, &[4, 0, 0, 255]), (9, 3));
    assert_eq!(in_body(PAIR, &[3, 0, 0, 5, 0, 255]), (9, 5));
    assert_eq!(in_body(PAIR, &[3, 0, 0, 5, 0, 33]), (9, 5));
}

#[test]
fn point_1_a_capture_count_is_3_then_8_and_never_4() {
    assert_eq!(in_body(PAIR, &[4, 0]), (3, 2));
    assert_eq!(in_body(PAIR, &[4, 0, 3]), (8, 2));
    assert_eq!(in_body(PAIR, &[4, 0, 33]), (8, 2));
    assert_eq!(in_body(PAIR, &[4, 0, 255]), (8, 2));
}

#[test]
fn point_1_a_clause_symbol_is_3_then_9_and_never_7() {
    assert_eq!(in_body(PAIR, &[4, 0, 0, 2]), (3, 4));
    assert_eq!(in_body(PAIR, &[4, 0, 0, 2, 2]), (9, 4));
    assert_eq!(in_body(PAIR, &[3, 0, 0, 5, 0, 2, 255]), (9, 6));
}

#[test]
fn point_2_a_missing_item_is_3_where_it_would_stand() {
    assert_eq!(verdict(&[1, 0, 0]), (3, 3));
    assert_eq!(in_body(ONE, &[]), (3, 0));
    assert_eq!(in_body(ONE, &[2, 6]), (3, 2));
}

#[test]
fn point_2_a_missing_length_and_a_region_too_long_are_3_at_the_length() {
    assert_eq!(verdict(&[1, 0, 3, 0, 1, 0]), (3, 6));
    assert_eq!(verdict(&[1, 0, 4, 0, 1, 0, 0]), (3, 6));
    assert_eq!(verdict(&[1, 0, 6, 0, 1, 0, 0, 2, 0]), (3, 6));
    assert_eq!(in_body(ONE, &[2, 4, 0]), (3, 3));
    assert_eq!(in_body(ONE, &[2, 4, 0, 0]), (3, 3));
    assert_eq!(in_body(ONE, &[2, 4, 0, 0, 1]), (3, 3));
}

#[test]
fn point_3_5_comes_before_10() {
    let body = deep(48, LIT);
    assert_eq!(in_body(&wide(31), &body), (10, 48 * 5 + 10));
    assert_eq!(in_body(&wide(32), &body), (5, 48 * 5 + 10));
    // A switch clause with one parameter too many, 48 deep: let takes the last entry, substitute
    // repeats another, so that 32 entries are before the producer goes and 33 would be after.
    let signature = [1, 1, 2, 2, 0, 2, 0, 1, 32];
    let head = [&signature[..], &[2, 0].repeat(32)].concat();
    let repeat = [&[1, 32][..], &[0; 31], &[30]].concat();
    let body = deep(48, &[&[3, 0, 0][..], &repeat, &[5, 0, 1, 0]].concat());
    assert_eq!(in_body(&head, &body), (5, 48 * 5 + 3 + 34 + 3));
}

#[test]
fn point_3_5_and_10_come_after_the_symbol_byte_and_before_the_length() {
    let switch = |symbol: &[u8]| [&[3, 0, 0, 5, 0, 2], symbol].concat();
    assert_eq!(in_body(PAIR, &deep(48, &switch(&[]))), (3, 48 * 5 + 6));
    assert_eq!(in_body(PAIR, &deep(48, &switch(&[1]))), (9, 48 * 5 + 6));
    assert_eq!(in_body(PAIR, &deep(48, &switch(&[0]))), (10, 48 * 5 + 6));
    assert_eq!(in_body(PAIR, &deep(48, &switch(&[0, 9, 9]))), (10, 48 * 5 + 6));
}

#[test]
fn point_3_an_extern_clause_has_them_where_its_length_would_stand() {
    assert_eq!(in_body(&wide(32), LIT), (5, 10));
    assert_eq!(in_body(&wide(32), &[2, 1, 0, 0]), (5, 4));
    assert_eq!(in_body(ONE, &deep(48, &[2, 4, 0])), (10, 48 * 5 + 3));
    assert_eq!(in_body(ONE, &deep(48, &[2, 5, 0, 0])), (10, 48 * 5 + 4));
}

#[test]
fn point_3_an_extern_clause_has_them_after_positions_and_literal() {
    assert_eq!(in_body(&wide(32), &LIT[..9]), (3, 2));
    assert_eq!(in_body(&wide(32), &[2, 1, 0]), (3, 3));
    assert_eq!(in_body(&wide(32), &[2, 1, 0, 32]), (7, 3));
    assert_eq!(in_body(ONE, &deep(48, &[2, 4, 1])), (7, 48 * 5 + 2));
}

#[test]
fn point_3_exit_has_no_depth_test() {
    let deepest = image(&wide(32), &[&deep(48, &[2, 6, 31])]);
    assert_eq!(verdict(&deepest), accepted(&deepest));
}

#[test]
fn point_4_the_width_after_new_comes_after_its_clauses_and_before_what_follows() {
    let new = |first: &[u8]| {
        let length = (first.len() as u16).to_be_bytes();
        [&[4, 0, 0, 2, 0], &length[..], first, &[1, 0, 3, 2, 6, 0]].concat()
    };
    let lawful = [LIT, &[0, 3, 2, 6, 0]].concat();
    assert_eq!(in_body(&wide(32), &new(&lawful)), (5, 0));
    assert_eq!(in_body(&wide(32), &new(&[7])), (6, 7));
    assert_eq!(in_body(&wide(32), &new(&[])), (3, 7));
    assert_eq!(in_body(&wide(31), &new(&lawful)), (3, 28));
}

#[test]
fn point_4_a_full_environment_bears_let_with_a_parameter_and_new_with_a_capture() {
    let let_one = image(&wide(32), &[&[3, 0, 1, 2, 6, 0]]);
    assert_eq!(verdict(&let_one), accepted(&let_one));
    assert_eq!(in_body(&wide(32), &[3, 0, 0, 2, 6, 0]), (5, 0));
    let new = [4, 0, 1, 2, 0, 0, 3, 2, 6, 0, 1, 0, 3, 2, 6, 0, 2, 6, 0];
    let new_one = image(&wide(32), &[&new]);
    assert_eq!(verdict(&new_one), accepted(&new_one));
}

#[test]
fn point_4_let_has_8_before_5() {
    let head = [1, 1, 0, 1, 32].iter().copied().chain([2, 0].repeat(32)).collect::<Vec<u8>>();
    assert_eq!(in_body(&head, &[3, 0, 0]), (5, 0));
    let wants_prd = [1, 1, 1, 0, 0, 1, 32];
    let head = wants_prd.iter().copied().chain([2, 0].repeat(32)).collect::<Vec<u8>>();
    assert_eq!(in_body(&head, &[3, 0, 0]), (8, 0));
}

#[test]
fn point_5_label_0_has_8_at_the_kind_after_the_whole_type() {
    let after_start =
        |bytes: &[u8]| verdict(&second::damage::with_length([&[1, 0, 0], bytes].concat()));
    assert_eq!(after_start(&[1, 0, 1, 1, 0, 0]), (8, 7));
    assert_eq!(after_start(&[1, 0, 1, 1, 0]), (3, 8));
    assert_eq!(after_start(&[1, 0, 1, 1, 0, 1]), (7, 8));
    assert_eq!(after_start(&[1, 0, 1, 1, 3]), (6, 7));
    assert_eq!(after_start(&[1, 0, 1, 1, 2, 1]), (6, 8));
}

#[test]
fn point_6_invoke_has_8_before_the_symbol_byte() {
    assert_eq!(in_body(PAIR, &[6]), (8, 0));
    assert_eq!(in_body(PAIR, &[1, 0, 6]), (8, 2));
    assert_eq!(in_body(PAIR, &[3, 0, 0, 6]), (8, 3));
}

#[test]
fn point_7_11_comes_before_the_next_clause_or_body() {
    assert_eq!(in_body(ONE, &[2, 4, 0, 0, 4, 2, 6, 0, 0, 0, 1, 9]), (11, 8));
    let two = [0, 2, 0, 0];
    assert_eq!(verdict(&image(&two, &[&[0, 0, 9], &[9]])), (11, 11));
    let mut after_last = image(&two, &[&[0, 0], &[0, 9]]);
    after_last.push(9);
    let after_last = second::damage::with_length(after_last);
    assert_eq!(verdict(&after_last), (7, 14));
    let mut after_last = image(&two, &[&[0, 0], &[0, 1]]);
    after_last.push(9);
    assert_eq!(verdict(&second::damage::with_length(after_last)), (11, 15));
}

#[test]
fn point_8_what_follows_let_substitute_and_new_is_no_deeper() {
    // Signature 0 has m0(), signature 1 none: its new has no clause and stands at any depth.
    let head = [2, 1, 0, 0, 1, 1, 2, 0];
    let straight = [3, 0, 0, 1, 1, 0, 4, 1, 0, 0, 1, 1, 0].repeat(20);
    let body = deep(48, &[&straight[..], &[2, 6, 0]].concat());
    let deepest = image(&head, &[&body]);
    assert_eq!(verdict(&deepest), accepted(&deepest));
}

#[test]
fn point_8_the_width_of_substitute_is_tested_by_its_count_only() {
    let body = [&[1, 32][..], &[0; 32], &[2, 6, 31]].concat();
    let widest = image(ONE, &[&body]);
    assert_eq!(verdict(&widest), accepted(&widest));
    let body = [&[1, 33][..], &[0; 33], &[2, 6, 31]].concat();
    assert_eq!(in_body(ONE, &body), (4, 1));
}

#[test]
fn point_9_a_refused_run_has_the_number_alone() {
    let image = with_bytes(&A, 9, &[7]);
    assert_eq!(run(&image, &[1], 9, &mut [5; 9_000]), refused(6));
    assert_eq!(lines(&image), "6 9\n6 0 0 0\n");
    assert_eq!(lines(&[]), "1 0\n1 0 0 0\n");
    assert_eq!(lines(&B), "0 35\n20 0 0 0\n");
}

#[test]
fn point_9_fuel_comes_before_room_and_20_before_21() {
    assert_eq!(run(&B, &[5, 9], 0, &mut []), answer(41, 0, 0, 0));
    assert_eq!(run(&B, &[5, 9], 1, &mut []), answer(42, 0, 0, 0));
    assert_eq!(run(&B, &[5], 1, &mut pattern(8_001)), refused(20));
    assert_eq!(run(&B, &[5, 9], 1, &mut pattern(8_001)), refused(21));
    assert_eq!(run_on_trees(&B, &[5], 1, 8_001).answer, refused(20));
}

/// So many `substitute 0` and a jump are well typed, whatever their number of bytes.
#[test]
fn point_11_the_size_is_part_of_acceptance() {
    let substitutes = |count| {
        let straight = vec![Straight::Substitute(vec![]); count];
        let body = Statement { straight, ..Statement::jump(0) };
        Program { signatures: vec![], labels: vec![Label { parameters: vec![], body }] }
    };
    let largest = substitutes((16_384 - 10) / 2);
    let image = assemble(&largest).expect("16,384 bytes");
    assert_eq!(image.len(), 16_384);
    assert_eq!(verdict(&image), accepted(&image));
    assert!(is_image_of_well_typed(&image));
    let larger = substitutes((16_384 - 10) / 2 + 1);
    let image = assemble(&larger).expect("16,386 bytes");
    assert!(is_well_typed(&larger));
    assert_eq!(verdict(&image), (1, 0));
    assert!(!is_image_of_well_typed(&image));
}

#[test]
fn point_11_a_literal_has_all_its_64_bits() {
    let image = image_of(&[], &[(vec![], Statement::lit(u64::MAX, Statement::exit(0)))]);
    assert_eq!(run(&image, &[], 2, &mut []), answer(40, 2, 0, u64::MAX));
    assert_eq!(assemble(&decode(&image).expect("accepted")), Some(image));
}

#[test]
fn point_13_one_byte_too_many_is_1_at_0() {
    assert_eq!(lines(&vec![1; 16_385]), "1 0\n1 0 0 0\n");
    assert_eq!(second::MOST_READ, 16_385);
}

#[test]
fn label_0_may_have_32_integers() {
    let body = Statement::exit(31);
    let image = image_of(&[], &[(vec![Type::Ext; 32], body)]);
    let args: Vec<u64> = (100..132).collect();
    assert_eq!(run(&image, &args, 1, &mut []), answer(40, 1, 0, 131));
}
