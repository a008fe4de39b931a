//! The shipped images: that the files are what the program makes, that A, B and C are document
//! 01's, and what the check and the run make of each, by the proved library and the second opinion.

#[path = "../../second/tests/common/mod.rs"]
mod common;

use std::collections::BTreeSet;
use std::fs;
use std::path::{Path, PathBuf};

use axcut::Answer;
use common::{pattern, A, B, C};
use images::{image, shipped};
use second::assemble::{assemble_with_items, ItemKind};
use second::terms::{Last, Program};

/// The image with its clauses in the wrong order, the only one that is not right.
const WRONG_ORDER: &str = "deed-wrong-order.axcut";
/// The fuel and the words of document 01's program.
const FUEL: u32 = 100_000;
const WORDS: usize = 1_024;

/// The program of a shipped file.
fn program_of(file: &str) -> Program {
    let found = shipped().into_iter().find(|(name, _)| *name == file);
    found.unwrap_or_else(|| panic!("{file} is not shipped")).1
}

/// The bytes of a shipped file.
fn image_of(file: &str) -> Vec<u8> {
    image(&program_of(file))
}

/// Number and offset, after seeing that both opinions give them.
fn verdict(image: &[u8]) -> (u8, usize) {
    let axcut::Verdict { number, offset } = axcut::check(image);
    let second = second::check(image);
    assert_eq!((number, offset), (second.number, second.offset as usize));
    (number, offset)
}

/// The answer and the words stored, after seeing that both opinions give them and that all other
/// words of the table kept their values.
fn ran(file: &str, args: &[u64], fuel: u32, words: usize) -> (Answer, Vec<u64>) {
    let image = image_of(file);
    let (mut table, mut for_second) = (pattern(words), pattern(words));
    let answer = axcut::run(&image, args, fuel, &mut table);
    let second = second::run(&image, args, fuel, &mut for_second);
    let fields = common::answer(answer.number, answer.steps, answer.words, answer.value);
    assert_eq!(fields, second, "{file}");
    assert_eq!(table, for_second, "{file}");
    let stored = answer.words as usize;
    assert_eq!(table[stored..], pattern(words)[stored..], "{file}");
    table.truncate(stored);
    (answer, table)
}

/// The answer and the words stored of a run with the program's fuel and words.
fn ran_as_the_program(file: &str, args: &[u64]) -> (Answer, Vec<u64>) {
    ran(file, args, FUEL, WORDS)
}

/// An answer, and the words stored.
fn ends(number: u8, steps: u32, value: u64, stored: &[u64]) -> (Answer, Vec<u64>) {
    let words = stored.len() as u32;
    (Answer { number, steps, words, value }, stored.to_vec())
}

/// The answer of a refused run.
fn refused(number: u8) -> (Answer, Vec<u64>) {
    ends(number, 0, 0, &[])
}

/// The names of the files in a folder.
fn files_in(folder: &Path) -> BTreeSet<String> {
    let entries = fs::read_dir(folder).expect("a folder").map(|entry| entry.expect("an entry"));
    entries.map(|entry| entry.file_name().into_string().expect("a plain name")).collect()
}

#[test]
fn shipped_files_are_what_the_program_makes() {
    for (file, program) in shipped() {
        let bytes = fs::read(images::folder().join(file)).expect("a shipped image");
        assert_eq!(bytes, image(&program), "{file}");
    }
}

/// What `cargo run -p images` does, in a folder of its own.
#[test]
fn the_program_writes_every_shipped_file_and_no_other() {
    let folder = PathBuf::from(env!("CARGO_TARGET_TMPDIR")).join("images");
    let _ = fs::remove_dir_all(&folder); // what a test that was broken off left there
    fs::create_dir_all(&folder).expect("a folder of its own");
    images::write(&folder).expect("written");
    assert_eq!(files_in(&folder), files_in(&images::folder()));
    for file in files_in(&folder) {
        let (made, is) = (folder.join(&file), images::folder().join(&file));
        assert_eq!(fs::read(made).expect("made"), fs::read(is).expect("shipped"), "{file}");
    }
    fs::remove_dir_all(folder).expect("removed");
}

#[test]
fn a_b_and_c_are_the_document_s() {
    assert_eq!(image_of("a.axcut"), A);
    assert_eq!(image_of("b.axcut"), B);
    assert_eq!(image_of("c.axcut"), C);
}

#[test]
fn every_right_image_is_accepted() {
    for (file, program) in shipped().into_iter().filter(|(file, _)| *file != WRONG_ORDER) {
        let image = image(&program);
        assert_eq!(verdict(&image), (0, image.len()), "{file}");
    }
}

/// The clause symbol that the assembler wrote first is the one that is wrong.
#[test]
fn clauses_in_the_wrong_order_are_9_at_the_symbol_byte() {
    let assembled = assemble_with_items(&program_of(WRONG_ORDER)).expect("a small program");
    let symbol = assembled.items.iter().find(|item| item.kind == ItemKind::ClauseSymbol);
    let symbol = symbol.expect("the switch has clauses").offset;
    assert_eq!(verdict(&assembled.image), (9, symbol));
    assert_eq!(assembled.image[symbol], 1, "until's symbol, where permanent's should stand");
}

#[test]
fn clauses_in_the_wrong_order_are_never_run() {
    for args in [&[740, 0][..], &[740, 700], &[740], &[]] {
        assert_eq!(ran_as_the_program(WRONG_ORDER, args), refused(9));
    }
    assert_eq!(ran(WRONG_ORDER, &[740, 700], 0, 0), refused(9));
}

#[test]
fn the_two_deed_images_differ_in_the_order_of_the_clauses_alone() {
    let mut mended = program_of(WRONG_ORDER);
    let Last::Switch { clauses, .. } = &mut mended.labels[1].body.last else {
        panic!("label 1 judges by a switch");
    };
    clauses.reverse();
    assert_eq!(mended, program_of("deed.axcut"));
}

/// What the rule says in a sentence: a deed with date 0 stays, another to the end of its date.
fn is_kept(day: u64, date: u64) -> bool {
    date == 0 || day <= date
}

#[test]
fn a_permanent_deed_is_kept_on_every_day() {
    for day in [0, 1, 740, u64::MAX] {
        assert_eq!(ran_as_the_program("deed.axcut", &[day, 0]), ends(40, 7, 0, &[]));
    }
}

#[test]
fn a_deed_with_a_date_is_kept_to_its_end_and_then_listed() {
    let judged = |day, date| ran_as_the_program("deed.axcut", &[day, date]);
    assert_eq!(judged(699, 700), ends(40, 7, 0, &[0, 700]));
    assert_eq!(judged(700, 700), ends(40, 7, 0, &[0, 700]));
    assert_eq!(judged(701, 700), ends(40, 7, 1, &[0, 700]));
    assert_eq!(judged(740, 700), ends(40, 7, 1, &[0, 700]));
    assert_eq!(judged(0, u64::MAX), ends(40, 7, 0, &[0, u64::MAX]));
    assert_eq!(judged(u64::MAX, u64::MAX - 1), ends(40, 7, 1, &[0, u64::MAX - 1]));
}

#[test]
fn the_deed_rule_says_what_its_sentence_says() {
    let dates = [0, 1, 2, 699, 700, 701, u64::MAX - 1, u64::MAX];
    for (day, date) in dates.iter().flat_map(|&day| dates.map(|date| (day, date))) {
        let (answer, _) = ran_as_the_program("deed.axcut", &[day, date]);
        let value = u64::from(!is_kept(day, date));
        assert_eq!((answer.number, answer.value), (40, value), "day {day}, date {date}");
    }
}

#[test]
fn the_deed_rule_asks_for_two_arguments_and_two_words() {
    assert_eq!(ran_as_the_program("deed.axcut", &[]), refused(20));
    assert_eq!(ran_as_the_program("deed.axcut", &[740]), refused(20));
    assert_eq!(ran("deed.axcut", &[740, 700], FUEL, 1), ends(42, 1, 0, &[]));
    assert_eq!(ran("deed.axcut", &[740, 700], FUEL, 2), ends(40, 7, 1, &[0, 700]));
    assert_eq!(ran("deed.axcut", &[740, 0], FUEL, 0), ends(40, 7, 0, &[]));
}

#[test]
fn a_exits_with_7() {
    assert_eq!(ran_as_the_program("a.axcut", &[]), ends(40, 2, 7, &[]));
}

#[test]
fn b_and_c_exit_with_their_second_argument() {
    assert_eq!(ran_as_the_program("b.axcut", &[5, 9]), ends(40, 3, 9, &[0, 9]));
    assert_eq!(ran_as_the_program("c.axcut", &[5, 9]), ends(40, 3, 9, &[0, 9]));
}

#[test]
fn the_countdown_exits_with_the_sum_of_its_counts() {
    assert_eq!(ran_as_the_program("countdown.axcut", &[0]), ends(40, 4, 0, &[]));
    assert_eq!(ran_as_the_program("countdown.axcut", &[1]), ends(40, 10, 1, &[]));
    assert_eq!(ran_as_the_program("countdown.axcut", &[4]), ends(40, 28, 10, &[]));
    assert_eq!(ran_as_the_program("countdown.axcut", &[1_000]), ends(40, 6_004, 500_500, &[]));
}

#[test]
fn the_countdown_spends_its_fuel() {
    assert_eq!(ran("countdown.axcut", &[4], 27, 0), ends(41, 27, 0, &[]));
    assert_eq!(ran("countdown.axcut", &[4], 28, 0), ends(40, 28, 10, &[]));
    assert_eq!(ran_as_the_program("countdown.axcut", &[16_666]), ends(40, FUEL, 138_886_111, &[]));
    assert_eq!(ran_as_the_program("countdown.axcut", &[16_667]), ends(41, FUEL, 0, &[]));
}

/// The first call captures 4, the second 9.
#[test]
fn squares_are_added_by_two_calls() {
    assert_eq!(ran_as_the_program("squares.axcut", &[3, 4]), ends(40, 13, 25, &[0, 4, 0, 9]));
    assert_eq!(ran_as_the_program("squares.axcut", &[0, 0]), ends(40, 13, 0, &[0, 0, 0, 0]));
    assert_eq!(ran("squares.axcut", &[3, 4], FUEL, 3), ends(42, 6, 0, &[0, 4]));
}

/// A cell is a number and a list, which is named by its block's position and its symbol.
#[test]
fn a_cell_that_finds_no_room_is_not_stored() {
    assert_eq!(ran("no-room.axcut", &[], FUEL, 0), ends(42, 4, 0, &[]));
    assert_eq!(ran("no-room.axcut", &[], FUEL, 3), ends(42, 4, 0, &[]));
    assert_eq!(ran("no-room.axcut", &[], FUEL, 4), ends(42, 8, 0, &[0, 7, 0, 0]));
    let two = [0, 7, 0, 0, 0, 7, 0, 1];
    assert_eq!(ran("no-room.axcut", &[], FUEL, 11), ends(42, 12, 0, &two));
    let three = [0, 7, 0, 0, 0, 7, 0, 1, 0, 7, 4, 1];
    assert_eq!(ran("no-room.axcut", &[], FUEL, 12), ends(42, 16, 0, &three));
}

/// Four words a cell fill the program's table with 256 cells.
#[test]
fn the_program_s_table_has_room_for_256_cells() {
    let (answer, stored) = ran_as_the_program("no-room.axcut", &[]);
    assert_eq!(answer, Answer { number: 42, steps: 2 + 4 * 256 + 2, words: 4 * 256, value: 0 });
    assert_eq!(stored.len(), WORDS);
}
