//! README.md, "A Rust host": its code is the example, and what it shows of the example and of the
//! program is what they print.

#[path = "../../second/tests/common/mod.rs"]
mod common;
mod shown;

#[path = "../examples/host.rs"]
#[allow(dead_code)] // the example's main is not called
mod host;

use std::fs;
use std::path::{Path, PathBuf};

use common::image_of;
use second::terms::{Statement, Type};
use shown::{commands, readme, repository};

/// The example's file, as README.md names it around the code.
const HOST: &str = "rust/axcut/examples/host.rs";
/// How README.md calls the example.
const CALL: &str = "cargo run --quiet --offline --manifest-path rust/Cargo.toml --example host";
/// The images that both are shown on.
const DEEDS: [&str; 2] = ["images/deed.axcut", "images/deed-wrong-order.axcut"];

/// What the example prints for these words, of which the first is a path in the repository.
fn host_prints(words: &[String]) -> String {
    let mut words = words.to_vec();
    words[0] = path(&words[0]);
    host::answer(&words).expect("an answer") + "\n"
}

/// The path of a file in the repository.
fn path(file: &str) -> String {
    repository().join(file).into_os_string().into_string().expect("a plain path")
}

/// The two lines of document 01's program, by the proved check and run.
fn program_prints(file: &str) -> String {
    let image = fs::read(path(file)).expect("a shipped image");
    let verdict = axcut::check(&image);
    let answer = axcut::run(&image, &[], second::PROGRAM_FUEL, &mut [0; second::PROGRAM_WORDS]);
    let axcut::Answer { number, steps, words, value } = answer;
    format!("{} {}\n{number} {steps} {words} {value}\n", verdict.number, verdict.offset)
}

fn host_says(image: &str, day: u64, date: u64) -> String {
    host::answer(&[path(image), day.to_string(), date.to_string()]).expect("an answer")
}

#[test]
fn the_code_is_the_example() {
    let (start, end) = (format!("<!-- {HOST} -->\n"), format!("\n<!-- end of {HOST} -->"));
    let readme = readme();
    let (_, rest) = readme.split_once(&start).expect("where the code starts");
    let (code, _) = rest.split_once(&end).expect("where the code ends");
    let example = format!("```rust\n{}```", include_str!("../examples/host.rs"));
    assert!(code == example, "README.md has other code than {HOST}");
}

#[test]
fn what_is_shown_of_the_host_is_what_it_prints() {
    let call: Vec<&str> = CALL.split(' ').collect();
    let mut images = Vec::new();
    for shown in commands() {
        if let Some(words) = shown.after(&call) {
            assert_eq!(shown.printed, host_prints(words));
            images.push(words[0].clone());
        }
    }
    assert_eq!(images, DEEDS);
}

#[test]
fn what_is_shown_of_the_program_is_what_it_prints() {
    let mut images = Vec::new();
    for shown in commands() {
        if let Some([image]) = shown.after(&["./run"]) {
            assert_eq!(shown.printed, program_prints(image));
            images.push(image.clone());
        }
    }
    assert_eq!(images, DEEDS);
}

#[test]
fn the_host_keeps_or_lists_by_the_rule() {
    let [right, _] = DEEDS;
    assert_eq!(host_says(right, 740, 0), "keep");
    assert_eq!(host_says(right, 740, 740), "keep");
    assert_eq!(host_says(right, 741, 740), "list for deletion");
}

#[test]
fn the_host_keeps_where_there_is_no_answer() {
    let [_, wrong] = DEEDS;
    assert_eq!(host_says(wrong, 740, 0), "keep, no answer: refused, 9 at 47");
    // A takes no arguments, and B exits with its second one.
    let [a, b] = ["images/a.axcut", "images/b.axcut"];
    assert_eq!(host_says(a, 740, 700), "keep, no answer: the run is refused, 20");
    assert_eq!(host_says(b, 740, 700), "keep, no answer: exit with 700");
}

#[test]
fn the_host_keeps_where_fuel_or_room_is_spent() {
    let (rounds, fills) = (file_of("rounds.axcut", &rounds()), file_of("fills.axcut", &fills()));
    let says = |image: &Path| host_says(image.to_str().expect("a plain path"), 740, 700);
    assert_eq!(says(&rounds), "keep, no answer: fuel spent");
    assert_eq!(says(&fills), "keep, no answer: room spent");
    [rounds, fills].iter().for_each(|file| fs::remove_file(file).expect("removed"));
}

/// A rule that goes round for ever.
fn rounds() -> Vec<u8> {
    image_of(&[], &[(vec![Type::Ext; 2], Statement::jump(0))])
}

/// A rule that stores its date again and again.
fn fills() -> Vec<u8> {
    let again = Statement::let_(0, 0, Statement::substitute(&[0, 0], Statement::jump(0)));
    image_of(&[vec![vec![Type::Ext]]], &[(vec![Type::Ext; 2], again)])
}

/// A file of its own with these bytes.
fn file_of(name: &str, bytes: &[u8]) -> PathBuf {
    let path = Path::new(env!("CARGO_TARGET_TMPDIR")).join(name);
    fs::write(&path, bytes).expect("written");
    path
}

#[test]
fn the_host_says_how_it_is_called() {
    let fault = host::answer(&[path(DEEDS[0])]).unwrap_err();
    assert_eq!(fault.to_string(), "host IMAGE DAY DATE");
}
