//! The gate's last word, `.ci/tally`, on logs made up for it, and the least numbers, `.ci/least`.

use std::fmt::Write as _;
use std::fs;
use std::path::{Path, PathBuf};
use std::process::{Command, Output};

fn repository() -> PathBuf {
    Path::new(env!("CARGO_MANIFEST_DIR")).join("../..").canonicalize().expect("the repository")
}

/// How many of each a gate run shows.
#[derive(Clone, Copy)]
struct Numbers {
    crates: usize,
    edits: usize,
    tests: usize,
}

/// What the file of these tests asks for.
const LEAST: Numbers = Numbers { crates: 2, edits: 3, tests: 9 };

impl Numbers {
    /// The log of a gate run that passed with these numbers, its tests in two programs.
    fn log(self) -> String {
        let mut log = String::new();
        for i in 0..self.crates {
            writeln!(log, "rt: crate_{i} proved").expect("written");
        }
        for i in 0..self.edits {
            let refused = "refused, as it must be: ./proofs/Rows.antt:1:2: error: `rows-hold`";
            writeln!(log, "rt: must-fail crate_0/edit_{i}.edit: {refused}").expect("written");
        }
        let well = "rt: ok; handles allowed: none; must-fail edits:";
        writeln!(log, "{well} {} refused; all was done in this run", self.edits).expect("written");
        writeln!(log, "the crates: {} passed", self.crates + self.edits).expect("written");
        for tests in [4, self.tests - 4] {
            let rest = "0 failed; 0 ignored; 0 measured; 0 filtered out; finished in 0.01s";
            writeln!(log, "test result: ok. {tests} passed; {rest}").expect("written");
        }
        log
    }

    fn file(self) -> String {
        let Self { crates, edits, tests } = self;
        format!("# A comment.\ncrates {crates}\nedits {edits}\ntests {tests}\n")
    }
}

/// What `.ci/tally` says of a log; `name` is the test's.
fn tally(name: &str, log: &str, least: &str) -> Output {
    let folder = Path::new(env!("CARGO_TARGET_TMPDIR"));
    let (log_file, least_file) =
        (folder.join(format!("{name}.log")), folder.join(format!("{name}.least")));
    fs::write(&log_file, log).expect("written");
    fs::write(&least_file, least).expect("written");
    let mut command = Command::new(repository().join(".ci/tally"));
    command.arg(log_file).arg(least_file).output().expect("the tally")
}

/// Whether it passed, and the first line that it wrote.
fn verdict(name: &str, log: &str) -> (bool, String) {
    let output = tally(name, log, &LEAST.file());
    let text = String::from_utf8(output.stdout).expect("text");
    (output.status.success(), text.lines().next().unwrap_or("").into())
}

fn refused(name: &str, log: &str, why: &str) {
    assert_eq!(verdict(name, log), (false, why.into()));
}

#[test]
fn a_run_with_the_least_numbers_passes_and_closes_with_its_sum() {
    let output = tally("least", &LEAST.log(), &LEAST.file());
    let text = String::from_utf8(output.stdout).expect("text");
    assert!(output.status.success());
    assert_eq!(text, "2 crates, 3 edits, 9 tests\n14 passed, 0 failed\n");
}

#[test]
fn more_of_each_passes() {
    let more = Numbers { crates: 3, edits: 5, tests: 10 };
    assert!(verdict("more", &more.log()).0);
}

/// A crate that rt proved in an earlier run, and an edit that it refuses at a function.
#[test]
fn what_is_kept_and_what_is_refused_in_a_source_count() {
    let kept = "crate_1 is kept: an earlier run on this machine proved the same files";
    let log = LEAST.log().replacen("crate_1 proved", kept, 1);
    assert!(verdict("kept", &log).0);
    assert!(verdict("source", &log.replacen("be: ./proofs/", "be: note: src/", 1)).0);
}

#[test]
fn one_crate_edit_or_test_fewer_is_refused() {
    refused("crate", &Numbers { crates: 1, ..LEAST }.log(), "1 crates, at least 2");
    refused("edit", &Numbers { edits: 2, ..LEAST }.log(), "2 edits, at least 3");
    refused("test", &Numbers { tests: 8, ..LEAST }.log(), "8 tests, at least 9");
}

#[test]
fn an_ignored_or_failed_test_is_refused() {
    let log = LEAST.log();
    refused("ignored", &log.replacen("0 ignored", "1 ignored", 1), "a test is ignored");
    refused("failed", &log.replacen("ok. 4 passed; 0", "FAILED. 4 passed; 1", 1), "a test failed");
}

#[test]
fn a_log_that_does_not_add_up_is_refused() {
    let log = LEAST.log();
    let unproved = "rt counts 5, its lines show 1 crates and 3 edits refused for a fact";
    refused("unproved", &log.replacen("crate_1 proved", "crate_1 NOT PROVED", 1), unproved);
    let unrefused = "rt counts 5, its lines show 2 crates and 2 edits refused for a fact";
    refused("unrefused", &log.replacen("refused, as it must be", "NOT REFUSED", 1), unrefused);
    refused("unreadable", &log.replacen("be: ./proofs/", "be: ./specs/", 1), unrefused);
    let unfit = "be (only because a proof file names what the edit took away): ./proofs/";
    refused("unfit", &log.replacen("be: ./proofs/", unfit, 1), unrefused);
    refused("not well", &log.replacen("rt: ok", "rt: FAILED", 1), "rt has no line that all is well");
    refused("bad", &log.replacen(" refused; all", " refused, 1 bad; all", 1), "an edit is bad");
    refused("unclosed", &log.replacen("the crates: ", "", 1), "rt did not pass");
    refused("empty", "", "rt did not pass");
}

#[test]
fn a_file_without_a_number_is_refused() {
    let output = tally("without", &LEAST.log(), "crates 2\nedits 3\n");
    assert!(!output.status.success());
}

/// The number that `.ci/least` has for a name.
fn least(name: &str) -> usize {
    let file = fs::read_to_string(repository().join(".ci/least")).expect(".ci/least");
    let line = file.lines().find_map(|line| line.strip_prefix(name)?.strip_prefix(' '));
    line.expect("a line for the name").parse().expect("a number")
}

/// How many times a line stands in the files of a folder, and below it, whose names end so.
fn count(folder: &Path, ending: &str, line: &str) -> usize {
    let entries = fs::read_dir(folder).into_iter().flatten();
    let counts = entries.map(|entry| {
        let path = entry.expect("an entry").path();
        if path.is_dir() && !path.ends_with("target") {
            return count(&path, ending, line);
        }
        if !path.is_file() || !path.to_string_lossy().ends_with(ending) {
            return 0;
        }
        let text = fs::read_to_string(&path).expect("a source");
        text.lines().filter(|l| l.trim() == line).count()
    });
    counts.sum()
}

/// The floor lies at what the repository has: of tests there may be more, examples in comments.
#[test]
fn the_least_numbers_are_those_of_the_repository() {
    assert!(least("tests") >= count(&repository().join("rust"), ".rs", "#[test]"));
    let crates = fs::read_to_string(repository().join("crates.txt")).expect("crates.txt");
    let names = crates.lines().filter(|line| !line.starts_with('#'));
    // a name, of a static library followed by that word, and what it stands on behind a colon
    let names: Vec<&str> = names.filter_map(|line| line.split([':', ' ']).next()).collect();
    assert_eq!(names.len(), least("crates"));
    let edits = names.iter().map(|name| {
        let folder = repository().join("crates").join(name).join("must-fail");
        let files = fs::read_dir(folder).into_iter().flatten();
        let names = files.map(|file| file.expect("an entry").file_name());
        names.filter(|name| name.to_string_lossy().ends_with(".edit")).count()
    });
    assert_eq!(edits.sum::<usize>(), least("edits"));
}
