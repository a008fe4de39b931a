//! docs/AUDIT.md stays true: every definition, theorem and row that it names is there, every row on
//! a sentence names something that fails when the sentence is broken, and every must-fail edit is
//! named.

use std::fs;
use std::path::{Path, PathBuf};

/// The heading of the column that names what fails.
const FAILS: &str = "Fails when it is broken";

fn repository() -> PathBuf {
    Path::new(env!("CARGO_MANIFEST_DIR")).join("../..").canonicalize().expect("the repository")
}

fn audit() -> String {
    fs::read_to_string(repository().join("docs/AUDIT.md")).expect("docs/AUDIT.md")
}

/// The files in a folder and below it whose names end so.
fn files_below(folder: &Path, ending: &str, found: &mut Vec<PathBuf>) {
    for entry in fs::read_dir(folder).expect("a folder") {
        let path = entry.expect("an entry").path();
        if path.is_dir() {
            files_below(&path, ending, found);
        } else if path.to_string_lossy().ends_with(ending) {
            found.push(path);
        }
    }
}

fn crate_files(ending: &str) -> Vec<PathBuf> {
    let mut found = Vec::new();
    files_below(&repository().join("crates"), ending, &mut found);
    found
}

/// What stands between backquotes.
fn quoted(text: &str) -> Vec<&str> {
    text.split('`').skip(1).step_by(2).collect()
}

/// `File.name`: a file of definitions or of proofs, and a name in it.
fn file_and_name(token: &str) -> Option<(&str, &str)> {
    let (file, name) = token.split_once('.')?;
    let plain = file.chars().all(|c| c.is_ascii_alphabetic());
    let a_name = file.starts_with(|c: char| c.is_ascii_uppercase()) && !name.contains(' ');
    (plain && a_name).then_some((file, name))
}

/// Whether a file of that name has the name as a word of its own.
fn is_there(sources: &[PathBuf], file: &str, name: &str) -> bool {
    let of_that_name = sources.iter().filter(|path| path.file_stem().is_some_and(|s| s == file));
    of_that_name.into_iter().any(|path| {
        let text = fs::read_to_string(path).expect("a source");
        text.split_whitespace().any(|word| word == name)
    })
}

fn edits() -> Vec<String> {
    let stem = |path: &PathBuf| path.file_stem().expect("a name").to_string_lossy().into_owned();
    crate_files(".edit").iter().map(stem).collect()
}

/// The rows of every table that has the column, each with the cell of that column.
fn rows_with_what_fails(audit: &str) -> Vec<(&str, &str)> {
    let mut rows = Vec::new();
    let mut in_table = false;
    for line in audit.lines() {
        if !line.starts_with('|') {
            in_table = false;
        } else if line.contains(FAILS) {
            in_table = true;
        } else if in_table && !line.starts_with("|---") {
            let cells: Vec<&str> = line.trim_matches('|').split(" | ").collect();
            rows.push((line, *cells.last().expect("a cell")));
        }
    }
    rows
}

#[test]
fn every_name_of_a_definition_theorem_or_row_is_there() {
    let sources = crate_files(".antt");
    let audit = audit();
    let names = quoted(&audit).into_iter().filter_map(file_and_name);
    let missing: Vec<_> = names.filter(|(file, name)| !is_there(&sources, file, name)).collect();
    assert!(missing.is_empty(), "{missing:?}");
}

#[test]
fn every_row_names_what_fails_when_it_is_broken() {
    let audit = audit();
    let edits = edits();
    let rows = rows_with_what_fails(&audit);
    assert!(rows.len() > 120, "{} rows", rows.len());
    for (row, fails) in rows {
        let tokens = quoted(fails);
        let named = tokens.iter().any(|token| {
            file_and_name(token).is_some() || edits.iter().any(|edit| edit == token)
        });
        let elsewhere = fails.trim() == "is read" || fails.trim().ends_with(" named");
        assert!(named || elsewhere, "{row}");
    }
}

#[test]
fn every_edit_that_a_row_names_is_there() {
    let audit = audit();
    let edits = edits();
    for (row, fails) in rows_with_what_fails(&audit) {
        for token in quoted(fails) {
            let an_edit = !token.contains(['.', ':']) && token.contains('_');
            assert!(!an_edit || token.ends_with('.') || edits.iter().any(|e| e == token), "{row}");
        }
    }
}

#[test]
fn every_edit_is_named() {
    let audit = audit();
    let words: Vec<&str> =
        audit.split(|c: char| !(c.is_ascii_alphanumeric() || c == '_')).collect();
    let missing: Vec<_> = edits().into_iter().filter(|e| !words.contains(&e.as_str())).collect();
    assert!(missing.is_empty(), "{missing:?}");
}
