//! The named readings of what check and run answer: each number has the name that document 01's
//! tables give it, and each answer the ending that its number says.

#[path = "../../second/tests/common/mod.rs"]
mod common;

use axcut::numbers::{
    ACCEPTED, BYTES_LEFT, EXIT, FUEL_SPENT, ILL_TYPED, PASSES_END, ROOM_SPENT, TABLE_TOO_LARGE,
    TOO_DEEP, TOO_WIDE, UNKNOWN_CODE, UNKNOWN_NAME, WRONG_ARGUMENTS, WRONG_CLAUSE, WRONG_COUNT,
    WRONG_SIZE, WRONG_VERSION,
};
use axcut::{Answer, Ending, Verdict};
use common::{image_of, nested, with_bytes, A, B};
use second::terms::{Statement, Type};

/// For each refusal, by its name, an image that has just that fault.
fn refused_images() -> [(u8, Vec<u8>); 11] {
    let entry = |integers, body| image_of(&[], &[(vec![Type::Ext; integers], body)]);
    let counted_too_many = [&with_bytes(&A, 2, &[0x15])[..], &[0]].concat();
    [
        (WRONG_SIZE, vec![]),
        (WRONG_VERSION, with_bytes(&A, 0, &[2])),
        (PASSES_END, with_bytes(&A, 19, &[4])),
        (WRONG_COUNT, with_bytes(&A, 4, &[0])),
        (TOO_WIDE, entry(32, Statement::lit(8, Statement::exit(0)))),
        (UNKNOWN_CODE, with_bytes(&A, 9, &[7])),
        (UNKNOWN_NAME, with_bytes(&A, 22, &[1])),
        (ILL_TYPED, with_bytes(&A, 20, &[0, 0, 0])),
        (WRONG_CLAUSE, with_bytes(&B, 22, &[1])),
        (TOO_DEEP, entry(1, nested(49, Statement::exit(0)))),
        (BYTES_LEFT, counted_too_many),
    ]
}

fn answer(number: u8, value: u64) -> Answer {
    Answer { number, steps: 3, words: 2, value }
}

#[test]
fn the_names_stand_for_document_01_s_numbers() {
    let refusals = refused_images().map(|(number, _)| number);
    assert_eq!(refusals, [1, 2, 3, 4, 5, 6, 7, 8, 9, 10, 11]);
    assert_eq!([WRONG_ARGUMENTS, TABLE_TOO_LARGE], [20, 21]);
    assert_eq!([EXIT, FUEL_SPENT, ROOM_SPENT], [40, 41, 42]);
    assert_eq!(ACCEPTED, 0);
}

#[test]
fn an_accepted_image_is_read_as_accepted() {
    assert!(axcut::check(&A).is_accepted());
    assert_eq!(axcut::check(&A), Verdict { number: ACCEPTED, offset: A.len() });
}

#[test]
fn a_refused_image_is_read_as_refused_with_its_number() {
    for (number, image) in refused_images() {
        let verdict = axcut::check(&image);
        assert!(!verdict.is_accepted(), "{number}");
        assert_eq!(verdict.number, number);
        let ending = axcut::run(&image, &[], 100, &mut []).ending();
        assert_eq!(ending, Ending::Refused(number));
    }
}

#[test]
fn runs_end_by_exit_fuel_and_room() {
    assert_eq!(axcut::run(&A, &[], 2, &mut []).ending(), Ending::Exit(7));
    assert_eq!(axcut::run(&A, &[], 1, &mut []).ending(), Ending::FuelSpent);
    assert_eq!(axcut::run(&B, &[5, 9], 3, &mut [0; 2]).ending(), Ending::Exit(9));
    assert_eq!(axcut::run(&B, &[5, 9], 3, &mut [0; 1]).ending(), Ending::RoomSpent);
}

#[test]
fn refused_runs_of_an_accepted_image() {
    let ending = axcut::run(&B, &[5], 3, &mut []).ending();
    assert_eq!(ending, Ending::Refused(WRONG_ARGUMENTS));
    let ending = axcut::run(&A, &[], 3, &mut [0; 8_001]).ending();
    assert_eq!(ending, Ending::Refused(TABLE_TOO_LARGE));
}

/// No number is accepted but 0, whatever it may be.
#[test]
fn only_0_is_accepted() {
    for number in 1..=u8::MAX {
        assert!(!Verdict { number, offset: 0 }.is_accepted(), "{number}");
    }
}

/// A number that is none of the three endings never reads as one: a host that only looks for an
/// exit is on the safe side.
#[test]
fn every_other_number_is_a_refusal() {
    for number in (0..=u8::MAX).filter(|number| ![EXIT, FUEL_SPENT, ROOM_SPENT].contains(number)) {
        assert_eq!(answer(number, 7).ending(), Ending::Refused(number));
    }
    assert_eq!(answer(EXIT, 7).ending(), Ending::Exit(7));
    assert_eq!(answer(FUEL_SPENT, 0).ending(), Ending::FuelSpent);
    assert_eq!(answer(ROOM_SPENT, 0).ending(), Ending::RoomSpent);
}
