//! The proved program: what it prints for an input, beside what the library answers.

#[path = "../../second/tests/common/mod.rs"]
mod common;

use std::io::Write;
use std::path::{Path, PathBuf};
use std::process::{Command, Output, Stdio};
use std::sync::LazyLock;

use common::{A, B, C};
use second::assemble::assemble;
use second::damage::{damaged, hand_made};
use second::generate::{self, Profile};
use second::random::Random;

/// From it, all programs and damages are made.
const SEED: u64 = 59;
/// What the program reads at most.
const MOST_INPUT: usize = 16_385;
/// How the program runs an image: no arguments, so much fuel, so many words.
const FUEL: u32 = 100_000;
const WORDS: usize = 1_024;

/// The program. The toolchain is asked for it, once for all tests: a file that is there does not say
/// what it was built from. After a proof of the same sources, as the gate's, it has little to do.
static PROGRAM: LazyLock<PathBuf> = LazyLock::new(|| {
    let repository = Path::new(env!("CARGO_MANIFEST_DIR")).join("../..");
    let folder = repository.join("crates/axcut");
    // it is run too, here on nothing
    let built = Command::new("rt").arg("run").current_dir(&folder).stdin(Stdio::null()).output();
    let Output { status, stderr, .. } = built.expect("the toolchain");
    assert!(status.success(), "the program was not built: {}", String::from_utf8_lossy(&stderr));
    folder.join("out/axcut")
});

/// What the program writes for an input.
fn printed(input: &[u8]) -> String {
    let mut child = Command::new(PROGRAM.as_path())
        .stdin(Stdio::piped())
        .stdout(Stdio::piped())
        .spawn()
        .expect("the program");
    let mut stdin = child.stdin.take().expect("its standard input");
    // a program that has read enough does not read the rest
    let _ = stdin.write_all(input);
    drop(stdin);
    let output = child.wait_with_output().expect("its end");
    assert!(output.status.success());
    String::from_utf8(output.stdout).expect("digits, spaces and line ends")
}

/// The two lines that the library's answers make.
fn lines(input: &[u8]) -> String {
    let image = &input[..input.len().min(MOST_INPUT)];
    let check = axcut::check(image);
    let run = axcut::run(image, &[], FUEL, &mut [0; WORDS]);
    format!(
        "{} {}\n{} {} {} {}\n",
        check.number, check.offset, run.number, run.steps, run.words, run.value
    )
}

#[test]
fn image_a_gives_exactly_its_two_lines() {
    assert_eq!(printed(&A), "0 23\n40 2 0 7\n");
}

#[test]
fn a_refused_image_gets_both_lines() {
    assert_eq!(printed(&[]), "1 0\n1 0 0 0\n");
    let mut image = A.to_vec();
    image[9] = 7;
    assert_eq!(printed(&image), "6 9\n6 0 0 0\n");
    assert_eq!(printed(&B), "0 35\n20 0 0 0\n");
    assert_eq!(printed(&C), "0 28\n20 0 0 0\n");
}

#[test]
fn an_input_that_is_too_long_is_1_at_0() {
    for size in [MOST_INPUT - 1, MOST_INPUT, MOST_INPUT + 1, 100_000] {
        let input = vec![1; size];
        assert_eq!(printed(&input), lines(&input), "{size} bytes");
    }
    assert_eq!(printed(&vec![1; MOST_INPUT]), "1 0\n1 0 0 0\n");
}

#[test]
fn every_image_made_by_hand_gets_its_lines() {
    for case in hand_made() {
        assert_eq!(printed(&case.image), lines(&case.image), "{:?}", case.image);
    }
}

#[test]
fn generated_and_damaged_images_get_their_lines() {
    let mut random = Random::new(SEED);
    for profile in Profile::ALL {
        for seed in SEED..SEED + 20 {
            let image = assemble(&generate::program(seed, profile)).expect("generated");
            assert_eq!(printed(&image), lines(&image), "{image:?}");
            let damaged = damaged(&image, &mut random);
            assert_eq!(printed(&damaged), lines(&damaged), "{damaged:?}");
        }
    }
}
