//! Document 01, "Images on either side of a line": every row that the check answers, and the lines
//! under "Also run", through the static library.

#[path = "../../second/tests/common/mod.rs"]
mod common;

use common::{image_of, nested, with_bytes, A, B, C};
use second::terms::{Statement, Type};

/// Number and offset of the proved check's verdict.
fn verdict(image: &[u8]) -> (u8, usize) {
    let axcut::Verdict { number, offset } = axcut::check(image);
    (number, offset)
}

#[test]
fn empty_input_is_1_at_0() {
    assert_eq!(verdict(&[]), (1, 0));
}

#[test]
fn a_is_accepted() {
    assert_eq!(verdict(&A), (0, 23));
}

#[test]
fn a_with_byte_0_as_02_is_2_at_0() {
    assert_eq!(verdict(&with_bytes(&A, 0, &[2])), (2, 0));
}

#[test]
fn a_with_byte_4_as_00_is_4_at_4() {
    assert_eq!(verdict(&with_bytes(&A, 4, &[0])), (4, 4));
}

#[test]
fn a_with_byte_9_as_07_is_6_at_9() {
    assert_eq!(verdict(&with_bytes(&A, 9, &[7])), (6, 9));
}

#[test]
fn a_with_byte_19_as_04_is_3_at_18() {
    assert_eq!(verdict(&with_bytes(&A, 19, &[4])), (3, 18));
}

#[test]
fn a_with_byte_19_as_02_is_3_at_22() {
    assert_eq!(verdict(&with_bytes(&A, 19, &[2])), (3, 22));
}

#[test]
fn a_with_byte_22_as_01_is_7_at_22() {
    assert_eq!(verdict(&with_bytes(&A, 22, &[1])), (7, 22));
}

#[test]
fn a_with_bytes_20_to_22_as_00_is_8_at_20() {
    assert_eq!(verdict(&with_bytes(&A, 20, &[0, 0, 0])), (8, 20));
}

#[test]
fn a_with_a_byte_added_and_counted_is_11_at_23() {
    let mut image = with_bytes(&A, 2, &[0x15]);
    image.push(0);
    assert_eq!(verdict(&image), (11, 23));
}

#[test]
fn b_is_accepted() {
    assert_eq!(verdict(&B), (0, 35));
}

#[test]
fn b_with_byte_23_as_01_is_9_at_23() {
    assert_eq!(verdict(&with_bytes(&B, 23, &[1])), (9, 23));
}

#[test]
fn b_with_byte_22_as_01_is_9_at_22() {
    assert_eq!(verdict(&with_bytes(&B, 22, &[1])), (9, 22));
}

#[test]
fn b_with_byte_19_as_00_is_accepted() {
    assert_eq!(verdict(&with_bytes(&B, 19, &[0])), (0, 35));
}

#[test]
fn c_is_accepted() {
    assert_eq!(verdict(&C), (0, 28));
}

#[test]
fn c_with_byte_18_as_02_is_8_at_26() {
    assert_eq!(verdict(&with_bytes(&C, 18, &[2])), (8, 26));
}

/// Label 0 with 31 integers: one lit makes 32 entries, which is the most.
#[test]
fn width_32_is_accepted() {
    let image = image_of(&[], &[(vec![Type::Ext; 31], Statement::lit(8, Statement::exit(31)))]);
    assert_eq!(verdict(&image), (0, image.len()));
}

/// The literal's 10 bytes stand before the clause, and the clause's 5 at the image's end.
#[test]
fn width_33_is_5_at_the_clause() {
    let image = image_of(&[], &[(vec![Type::Ext; 32], Statement::lit(8, Statement::exit(31)))]);
    assert_eq!(verdict(&image), (5, image.len() - 5));
}

#[test]
fn depth_48_is_accepted() {
    let image = image_of(&[], &[(vec![Type::Ext], nested(48, Statement::exit(0)))]);
    assert_eq!(verdict(&image), (0, image.len()));
}

/// Each ifz puts its first clause (5 bytes) and its own 5 before the second clause's statement.
#[test]
fn depth_49_is_10_at_the_clause() {
    let image = image_of(&[], &[(vec![Type::Ext], nested(49, Statement::exit(0)))]);
    let innermost = 10 + 48 * 10;
    assert_eq!(verdict(&image), (10, innermost + 3));
}
