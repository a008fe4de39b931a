//! README.md's tables on images: the bytes of image A, and what check and run say of each shipped
//! image.

mod shown;

use std::fs;

use shown::{quoted, repository, table_below};

/// Number and offset, as the program prints them.
fn checked(image: &[u8]) -> String {
    let axcut::Verdict { number, offset } = axcut::check(image);
    format!("{number} {offset}")
}

/// Number, steps, words and value of a run with the program's fuel and table, as it prints them.
fn ran(image: &[u8], args: &[u64]) -> String {
    let mut table = [0; second::PROGRAM_WORDS];
    let answer = axcut::run(image, args, second::PROGRAM_FUEL, &mut table);
    let axcut::Answer { number, steps, words, value } = answer;
    format!("{number} {steps} {words} {value}")
}

fn shipped(file: &str) -> Vec<u8> {
    fs::read(repository().join("images").join(file)).expect("a shipped image")
}

fn numbers(words: &str) -> Vec<u64> {
    words.split(' ').map(|word| word.parse().expect("a number")).collect()
}

#[test]
fn the_bytes_of_image_a_are_shown_in_order() {
    let mut shown: Vec<u8> = Vec::new();
    for row in table_below("## An image, byte by byte") {
        assert_eq!(row[0], shown.len().to_string(), "the offset of {row:?}");
        let [bytes] = quoted(&row[1])[..] else {
            panic!("one item of bytes in {row:?}");
        };
        let byte = |word| u8::from_str_radix(word, 16).expect("a byte");
        shown.extend(bytes.split(' ').map(byte));
    }
    assert_eq!(shown, shipped("a.axcut"));
}

#[test]
fn every_shipped_image_is_listed() {
    let rows = table_below("## The shipped images");
    let mut listed: Vec<&str> = rows.iter().flat_map(|row| quoted(&row[0])).collect();
    listed.sort_unstable();
    let folder = fs::read_dir(repository().join("images")).expect("the folder");
    let name = |entry: fs::DirEntry| entry.file_name().into_string().expect("a plain name");
    let mut files: Vec<String> = folder.map(|entry| name(entry.expect("an entry"))).collect();
    files.sort_unstable();
    assert_eq!(listed, files);
}

#[test]
fn every_shipped_image_gets_the_lines_that_are_listed() {
    for row in table_below("## The shipped images") {
        let image = shipped(quoted(&row[0])[0]);
        assert_eq!(quoted(&row[2]), [checked(&image), ran(&image, &[])], "{row:?}");
    }
}

#[test]
fn runs_with_arguments_get_the_lines_that_are_listed() {
    let mut runs = 0;
    for row in table_below("## The shipped images") {
        let image = shipped(quoted(&row[0])[0]);
        for pair in quoted(&row[3]).chunks(2) {
            assert_eq!(pair[1], ran(&image, &numbers(pair[0])), "{row:?}");
            runs += 1;
        }
    }
    assert!(runs >= 6, "only {runs} runs are listed");
}
