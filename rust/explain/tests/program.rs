//! The program `axcut-explain`, on the shipped images, and on files that are none.

use std::path::{Path, PathBuf};
use std::process::{Command, Output};

/// Runs the program in the repository's folder `images`, on the words of a command line.
fn program(line: &str) -> Output {
    let images = Path::new(env!("CARGO_MANIFEST_DIR")).join("../../images");
    let program = Command::new(env!("CARGO_BIN_EXE_axcut-explain"))
        .args(line.split_whitespace())
        .current_dir(images)
        .output();
    program.expect("the program ran")
}

/// What the program prints where it has something to explain.
fn explained(line: &str) -> String {
    let output = program(line);
    assert!(output.status.success(), "{line}");
    assert!(output.stderr.is_empty(), "{line}");
    String::from_utf8(output.stdout).expect("text")
}

/// What the program complains of.
fn complaint(line: &str) -> String {
    let output = program(line);
    assert_eq!(output.status.code(), Some(2), "{line}");
    assert!(output.stdout.is_empty(), "{line}");
    String::from_utf8(output.stderr).expect("text")
}

/// The lines on the run.
fn run_of(line: &str) -> Vec<String> {
    explained(line).lines().skip(2).map(String::from).collect()
}

/// A file of its own with these bytes.
fn file_of(name: &str, bytes: &[u8]) -> PathBuf {
    let path = Path::new(env!("CARGO_TARGET_TMPDIR")).join(name);
    std::fs::write(&path, bytes).expect("written");
    path
}

#[test]
fn image_a_as_document_01_s_program_runs_it() {
    let expected = concat!(
        "a.axcut has 23 bytes.\n",
        "The check accepts it: 0 at 23.\n",
        "The run has no arguments, fuel 100000 and a table of 1024 words.\n",
        "It ends with 40, exit, after 2 steps. Its value is 7.\n",
        "It stored no words.\n"
    );
    assert_eq!(explained("a.axcut"), expected);
}

#[test]
fn b_and_c_exit_with_9() {
    for image in ["b.axcut", "c.axcut"] {
        let expected = [
            "The run has the arguments 5 9, fuel 3 and a table of 2 words.",
            "It ends with 40, exit, after 3 steps. Its value is 9.",
            "It stored 2 words: 0 9.",
        ];
        assert_eq!(run_of(&format!("{image} --args 5 9 --fuel 3 --words 2")), expected);
    }
}

#[test]
fn a_deed_is_kept_or_listed() {
    assert!(explained("deed.axcut --args 740 0").contains("Its value is 0."));
    assert!(explained("deed.axcut --args 740 740").contains("Its value is 0."));
    assert!(explained("deed.axcut --args 740 739").contains("Its value is 1."));
}

#[test]
fn clauses_in_the_wrong_order_are_shown_at_the_symbol_byte() {
    let expected = concat!(
        "deed-wrong-order.axcut has 106 bytes.\n",
        "The check refuses it: 9 at 47, clause count or clause symbol wrong.\n",
        "     39: 01 00 01 00 3E 05 00 02 01 00 26 02 05 01 00 00 0F ..\n",
        "                                 ^^ 47: the clause count, or the clause's symbol byte\n",
        "It is not run.\n"
    );
    assert_eq!(explained("deed-wrong-order.axcut --args 740 700"), expected);
}

#[test]
fn squares_show_what_was_captured() {
    let expected = [
        "The run has the arguments 3 4, fuel 100000 and a table of 1024 words.",
        "It ends with 40, exit, after 13 steps. Its value is 25.",
        "It stored 4 words: 0 4, 0 9.",
    ];
    assert_eq!(run_of("squares.axcut --args 3 4"), expected);
}

#[test]
fn a_long_countdown_spends_its_fuel() {
    let expected = [
        "The run has the argument 20000, fuel 100000 and a table of 1024 words.",
        "It ends with 41, fuel spent, after 100000 steps. It has no value.",
        "It stored no words.",
    ];
    assert_eq!(run_of("countdown.axcut --args 20000"), expected);
}

#[test]
fn a_list_that_grows_spends_its_room() {
    let expected = [
        "The run has no arguments, fuel 100000 and a table of 1024 words.",
        "It ends with 42, room spent, after 1028 steps. The next statement's block finds no room \
         in the table, so that the statement is neither counted nor performed.",
        "It stored 1024 words.",
    ];
    assert_eq!(run_of("no-room.axcut"), expected);
}

#[test]
fn refused_runs_of_an_accepted_image() {
    let [_, ending, stored] = run_of("b.axcut").try_into().expect("three lines");
    assert_eq!(ending, "It is refused with 20, argument count differs from label 0's.");
    assert_eq!(stored, "It stored no words.");
    let [_, ending, stored] = run_of("a.axcut --words 8001").try_into().expect("three lines");
    assert_eq!(ending, "It is refused with 21, table above 8,000 words.");
    assert_eq!(stored, "It stored no words.");
}

#[test]
fn an_empty_file_and_one_that_is_too_long() {
    for (name, length) in [("empty.axcut", 0), ("too-long.axcut", 40_000)] {
        let file = file_of(name, &vec![1; length]);
        let text = explained(file.to_str().expect("a plain path"));
        std::fs::remove_file(file).expect("removed");
        let refused = "The check refuses it: 1 at 0, fewer than 3 or more than 16,384 bytes.\n";
        assert!(text.contains(refused), "{text}");
        assert_eq!(text.contains(" has more than 16,384 bytes.\n"), length > 16_384, "{text}");
    }
}

#[test]
fn a_file_that_was_cut_off_has_a_wrong_length_field() {
    let image = include_bytes!("../../../images/a.axcut");
    let file = file_of("cut-off.axcut", &image[..20]);
    let text = explained(file.to_str().expect("a plain path"));
    std::fs::remove_file(file).expect("removed");
    assert!(text.contains("1 at 1, wrong length field, which is not the number"), "{text}");
    assert!(text.contains("^^ 1: the length field\n"), "{text}");
}

#[test]
fn help_is_no_fault() {
    assert_eq!(explained("--help"), explain::command::USAGE);
}

#[test]
fn what_cannot_be_explained_ends_with_2() {
    assert!(complaint("").starts_with("axcut-explain: which FILE?\n\naxcut-explain FILE "));
    assert!(complaint("a.axcut --fuel much").contains("much is not a number, or too large"));
    assert!(complaint("no-such.axcut").starts_with("axcut-explain: no-such.axcut: "));
}
