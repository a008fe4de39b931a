//! What the numbers mean, in the words of document 01's tables.

use axcut::numbers::{
    ACCEPTED, BYTES_LEFT, EXIT, FUEL_SPENT, ILL_TYPED, PASSES_END, ROOM_SPENT, TABLE_TOO_LARGE,
    TOO_DEEP, TOO_WIDE, UNKNOWN_CODE, UNKNOWN_NAME, WRONG_ARGUMENTS, WRONG_CLAUSE, WRONG_COUNT,
    WRONG_SIZE, WRONG_VERSION,
};

/// Offset of the length field; a wrong size stands at 0.
const LENGTH_FIELD: usize = 1;

/// What a number of the check or of the run means; none where document 01 does not have it.
pub fn meaning(number: u8) -> Option<&'static str> {
    Some(match number {
        ACCEPTED => "accepted",
        WRONG_SIZE => "fewer than 3 or more than 16,384 bytes, or wrong length field",
        WRONG_VERSION => "version byte not 1",
        PASSES_END => "an item or region passes the end of its region",
        WRONG_COUNT => "a count outside its limits",
        TOO_WIDE => "environment above 32",
        UNKNOWN_CODE => "unknown kind, code or operation; `ext` number not 0",
        UNKNOWN_NAME => "unknown signature, symbol, label or position",
        ILL_TYPED => "a typing premise fails",
        WRONG_CLAUSE => "clause count or clause symbol wrong",
        TOO_DEEP => "clause deeper than 48",
        BYTES_LEFT => "bytes left in a region, or in the image after the last body",
        WRONG_ARGUMENTS => "argument count differs from label 0's",
        TABLE_TOO_LARGE => "table above 8,000 words",
        EXIT => "exit",
        FUEL_SPENT => "fuel spent",
        ROOM_SPENT => "room spent",
        _ => return None,
    })
}

/// What the check's number means at this offset, which tells apart the two faults of number 1.
pub fn meaning_at(number: u8, offset: usize) -> Option<&'static str> {
    match (number, offset) {
        (WRONG_SIZE, 0) => Some("fewer than 3 or more than 16,384 bytes"),
        (WRONG_SIZE, LENGTH_FIELD) => {
            Some("wrong length field, which is not the number of bytes behind it")
        }
        _ => meaning(number),
    }
}

/// What stands at this offset of the check's number; none where there is no such refusal.
pub fn place(number: u8, offset: usize) -> Option<&'static str> {
    Some(match number {
        WRONG_SIZE if offset == LENGTH_FIELD => "the length field",
        WRONG_SIZE => "the image's start",
        WRONG_VERSION => "the version byte",
        PASSES_END => "the item's first byte, or the region's length field",
        WRONG_COUNT => "the count byte",
        TOO_WIDE => "the statement's code, or the clause's first byte",
        UNKNOWN_CODE | UNKNOWN_NAME => "the unknown byte",
        ILL_TYPED => "the statement's code, or the byte whose premise fails",
        WRONG_CLAUSE => "the clause count, or the clause's symbol byte",
        TOO_DEEP => "the clause's first byte",
        BYTES_LEFT => "the first byte left",
        _ => return None,
    })
}

#[cfg(test)]
mod tests {
    use super::*;
    use std::collections::BTreeSet;

    /// The numbers of the check's refusals.
    const REFUSALS: std::ops::RangeInclusive<u8> = WRONG_SIZE..=BYTES_LEFT;
    /// Every number of document 01.
    fn numbers() -> impl Iterator<Item = u8> {
        let of_runs = [WRONG_ARGUMENTS, TABLE_TOO_LARGE, EXIT, FUEL_SPENT, ROOM_SPENT];
        REFUSALS.chain([ACCEPTED]).chain(of_runs)
    }

    #[test]
    fn every_number_has_a_meaning_of_its_own() {
        let meanings: BTreeSet<&str> =
            numbers().map(|number| meaning(number).expect("a meaning")).collect();
        assert_eq!(meanings.len(), numbers().count());
        assert!(meanings.iter().all(|meaning| !meaning.is_empty()));
    }

    #[test]
    fn no_other_number_has_a_meaning() {
        let known: BTreeSet<u8> = numbers().collect();
        let meant: BTreeSet<u8> = (0..=255).filter(|&number| meaning(number).is_some()).collect();
        assert_eq!(meant, known);
    }

    #[test]
    fn refusals_of_the_check_have_a_place_and_nothing_else_has() {
        for number in 0..=255 {
            for offset in [0, 1, 2, 16_384] {
                let has_place = place(number, offset).is_some();
                assert_eq!(has_place, REFUSALS.contains(&number), "{number} at {offset}");
            }
        }
    }

    #[test]
    fn the_two_faults_of_number_1_are_told_by_the_offset() {
        let size = meaning_at(WRONG_SIZE, 0).expect("a meaning");
        let field = meaning_at(WRONG_SIZE, 1).expect("a meaning");
        assert!(size.contains("bytes") && !size.contains("length field"), "{size}");
        assert!(field.contains("length field") && !field.contains("16,384"), "{field}");
        assert_eq!(place(WRONG_SIZE, 0), Some("the image's start"));
        assert_eq!(place(WRONG_SIZE, 1), Some("the length field"));
    }

    #[test]
    fn every_other_number_means_the_same_at_every_offset() {
        for number in (0..=255).filter(|&number| number != WRONG_SIZE) {
            for offset in [0, 1, 2, 16_384] {
                assert_eq!(meaning_at(number, offset), meaning(number));
                assert_eq!(place(number, offset), place(number, 0));
            }
        }
    }
}
