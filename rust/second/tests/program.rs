//! The program: two lines for what it reads from standard input, and no byte read too many.

mod common;

use std::fs::File;
use std::io::{Seek, SeekFrom, Write};
use std::path::PathBuf;
use std::process::{Command, Output, Stdio};

use common::{with_bytes, A, B};
use second::generate::{self, Profile};
use second::lines;

/// A file with these bytes, to be read from the start.
fn file_of(name: &str, bytes: &[u8]) -> (File, PathBuf) {
    let path = PathBuf::from(env!("CARGO_TARGET_TMPDIR")).join(name);
    let mut file = File::options()
        .read(true)
        .write(true)
        .create(true)
        .truncate(true)
        .open(&path)
        .expect("a file of its own");
    file.write_all(bytes).expect("written");
    file.seek(SeekFrom::Start(0)).expect("rewound");
    (file, path)
}

/// Runs the program on these bytes; gives its output and how far it read.
fn program(name: &str, bytes: &[u8]) -> (Output, u64) {
    let (mut file, path) = file_of(name, bytes);
    let input = Stdio::from(file.try_clone().expect("the same file"));
    let output = Command::new(env!("CARGO_BIN_EXE_second")).stdin(input).output();
    let read = file.stream_position().expect("a position");
    std::fs::remove_file(path).expect("removed");
    (output.expect("the program ran"), read)
}

fn printed(name: &str, bytes: &[u8]) -> String {
    let (output, _) = program(name, bytes);
    assert!(output.status.success());
    assert!(output.stderr.is_empty());
    String::from_utf8(output.stdout).expect("decimal numbers")
}

#[test]
fn image_a() {
    assert_eq!(printed("image_a", &A), "0 23\n40 2 0 7\n");
}

#[test]
fn empty_input() {
    assert_eq!(printed("empty_input", &[]), "1 0\n1 0 0 0\n");
}

#[test]
fn refused_image() {
    let image = with_bytes(&A, 20, &[0, 0, 0]);
    assert_eq!(printed("refused_image", &image), "8 20\n8 0 0 0\n");
}

#[test]
fn image_with_arguments() {
    assert_eq!(printed("image_with_arguments", &B), "0 35\n20 0 0 0\n");
}

/// A program that only spends fuel, and one that fills the 1,024 words.
#[test]
fn fuel_and_room_of_the_program_s_run() {
    let spins = [1, 0, 7, 0, 1, 0, 0, 2, 0, 0];
    assert_eq!(printed("spins", &spins), "0 10\n41 100000 0 0\n");
    // Signature 0 has m0(prd 0) and m1(): let 0 1, jump 1; let 0 0, jump 1.
    let head = [1, 2, 1, 0, 0, 0, 2, 0, 1, 0, 0];
    let fills = common::image(&head, &[&[3, 0, 1, 0, 1], &[3, 0, 0, 0, 1]]);
    assert_eq!(printed("fills", &fills), "0 28\n42 1026 1024 0\n");
}

#[test]
fn value_of_64_bits_is_unsigned_decimal() {
    let image = with_bytes(&A, 10, &[255; 8]);
    assert_eq!(printed("value_of_64_bits", &image), "0 23\n40 2 0 18446744073709551615\n");
}

#[test]
fn input_of_16385_bytes_and_more_is_refused_and_the_rest_left_unread() {
    for length in [16_385, 16_386, 20_000, 40_000] {
        let (output, read) = program(&format!("long_{length}"), &vec![1; length]);
        assert_eq!(output.stdout, b"1 0\n1 0 0 0\n");
        assert_eq!(read, 16_385);
    }
}

#[test]
fn input_of_16384_bytes_is_read_whole() {
    let image = (0..).map(|seed| generate::image(seed, Profile::Large));
    let image = image.into_iter().find(|image| image.len() == 16_384).expect("one soon");
    let (output, read) = program("input_of_16384", &image);
    assert_eq!(String::from_utf8(output.stdout).expect("text"), lines(&image));
    assert_eq!(read, 16_384);
}

#[test]
fn generated_images_print_their_lines() {
    for profile in Profile::ALL {
        for seed in 0..5 {
            let image = generate::image(seed, profile);
            assert_eq!(printed(&format!("generated_{profile:?}_{seed}"), &image), lines(&image));
        }
    }
}
