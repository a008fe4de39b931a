//! What README.md shows: in its blocks of code, a line after `$ ` is a command, and the lines below
//! it are what it prints; and its tables, by their headings.

#![allow(dead_code)] // each test file is a program of its own and uses only some of this

use std::fs;
use std::path::{Path, PathBuf};

/// A command, and what it is said to print.
pub struct Shown {
    /// The words of the command.
    pub words: Vec<String>,
    /// The lines below it.
    pub printed: String,
}

impl Shown {
    /// The words that follow these first ones, where the command begins with them.
    pub fn after(&self, first: &[&str]) -> Option<&[String]> {
        let (start, rest) = self.words.split_at_checked(first.len())?;
        (start == first).then_some(rest)
    }
}

/// The repository, where the commands are to be run.
pub fn repository() -> PathBuf {
    Path::new(env!("CARGO_MANIFEST_DIR")).join("../..")
}

/// The text of README.md.
pub fn readme() -> String {
    fs::read_to_string(repository().join("README.md")).expect("README.md")
}

/// Every command that README.md shows with what it prints.
pub fn commands() -> Vec<Shown> {
    let mut commands: Vec<Shown> = Vec::new();
    let mut in_transcript = false;
    for line in readme().lines() {
        if let Some(command) = line.strip_prefix("$ ") {
            let words = command.split_whitespace().map(String::from).collect();
            commands.push(Shown { words, printed: String::new() });
            in_transcript = true;
        } else if line.starts_with("```") {
            in_transcript = false;
        } else if let (true, Some(shown)) = (in_transcript, commands.last_mut()) {
            shown.printed += line;
            shown.printed += "\n";
        }
    }
    commands
}

/// The rows of the first table below a heading of README.md, as cells, without the table's head.
pub fn table_below(heading: &str) -> Vec<Vec<String>> {
    let readme = readme();
    let mut lines = readme.lines().skip_while(|line| *line != heading);
    let table = lines.by_ref().skip_while(|line| !line.starts_with('|'));
    let rows = table.take_while(|line| line.starts_with('|')).skip(2);
    rows.map(cells).collect()
}

fn cells(row: &str) -> Vec<String> {
    let inside = row.trim_matches('|');
    inside.split('|').map(|cell| cell.trim().to_string()).collect()
}

/// What stands between backquotes, in order.
pub fn quoted(cell: &str) -> Vec<&str> {
    cell.split('`').skip(1).step_by(2).collect()
}
