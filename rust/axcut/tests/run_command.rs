//! The command `./run`: on a shipped image, from other folders than the repository's; and what it
//! says before it builds anything, with a stand-in for the toolchain.

use std::fs::{self, File};
use std::path::{Path, PathBuf};
use std::process::{Command, Output};
use std::time::{Duration, SystemTime};

/// What `./run` says before it builds.
const ANNOUNCED: &str =
    "./run: proving and building the program first, which can take some minutes\n";

fn repository() -> PathBuf {
    let root = Path::new(env!("CARGO_MANIFEST_DIR")).join("../..");
    root.canonicalize().expect("the repository")
}

/// Runs a line of the shell in a folder.
fn shell(folder: &Path, line: &str) -> Output {
    let shell = Command::new("bash").args(["-c", line]).current_dir(folder).output();
    shell.expect("a shell")
}

fn text(bytes: &[u8]) -> &str {
    std::str::from_utf8(bytes).expect("text")
}

/// What a command printed that did what it was asked for.
fn printed(output: &Output) -> &str {
    assert!(output.status.success(), "{}", text(&output.stderr));
    text(&output.stdout)
}

/// What a command complained of that did nothing.
fn complaint(output: &Output) -> &str {
    assert!(!output.status.success());
    assert_eq!(text(&output.stdout), "");
    text(&output.stderr)
}

/// A folder with `./run` and one source, where nothing is built yet. Its name has a space.
struct Unbuilt {
    folder: PathBuf,
}

impl Unbuilt {
    fn new(name: &str) -> Self {
        let folder = Path::new(env!("CARGO_TARGET_TMPDIR")).join(format!("run {name}"));
        let _ = fs::remove_dir_all(&folder); // what a test that was broken off left there
        let unbuilt = Self { folder };
        fs::create_dir_all(unbuilt.folder.join("crates/axcut")).expect("a folder of its own");
        fs::copy(repository().join("run"), unbuilt.folder.join("run")).expect("copied");
        fs::write(unbuilt.folder.join("crates.txt"), "axcut:\n").expect("written");
        fs::write(unbuilt.source(), "fn main() {}\n").expect("written");
        fs::write(unbuilt.folder.join("an image"), "12345").expect("written");
        unbuilt
    }

    fn source(&self) -> PathBuf {
        self.folder.join("crates/source")
    }

    /// Runs its `./run`, from the folder that it stands in, with the stand-in for the toolchain.
    fn run(&self, arguments: &[&str]) -> Output {
        self.bash().arg(self.folder.join("run")).args(arguments).output().expect("a shell")
    }

    /// Runs a line of the shell there, with the stand-in for the toolchain.
    fn shell(&self, line: &str) -> Output {
        self.bash().args(["-c", line]).output().expect("a shell")
    }

    /// A shell in the folder, which finds the stand-in for the toolchain.
    fn bash(&self) -> Command {
        let stand_in = Path::new(env!("CARGO_MANIFEST_DIR")).join("tests/stand_in");
        let path = std::env::var("PATH").expect("a path");
        let mut bash = Command::new("bash");
        bash.current_dir(&self.folder).env("PATH", format!("{}:{path}", stand_in.display()));
        bash
    }

    /// Whether the toolchain was asked for anything.
    fn is_asked(&self) -> bool {
        self.folder.join("asked").exists()
    }
}

impl Drop for Unbuilt {
    fn drop(&mut self) {
        let _ = fs::remove_dir_all(&self.folder);
    }
}

/// Document 01's program on document 01's image, as README.md's first command calls it.
#[test]
fn image_a_from_other_folders_gives_its_two_lines() {
    let repository = repository();
    for (folder, line) in [
        (".", "./run images/a.axcut"),
        ("images", "../run a.axcut"),
        ("rust/axcut", "../../run ../../images/a.axcut"),
    ] {
        let output = shell(&repository.join(folder), line);
        assert_eq!(printed(&output), "0 23\n40 2 0 7\n", "{line} in {folder}");
    }
    let elsewhere = Path::new(env!("CARGO_TARGET_TMPDIR"));
    let line = format!("'{0}/run' '{0}/images/a.axcut'", repository.display());
    assert_eq!(printed(&shell(elsewhere, &line)), "0 23\n40 2 0 7\n");
}

/// A shell that says where `cd` leads, as it does with this variable, puts nothing before the lines.
#[test]
fn a_search_path_for_folders_changes_nothing() {
    let repository = repository();
    let (above, name) = (repository.parent(), repository.file_name());
    let name = name.expect("a name").to_str().expect("a plain name");
    let line = format!("export CDPATH=$PWD; bash '{name}/run' '{name}/images/a.axcut'");
    let output = shell(above.expect("a folder above"), &line);
    assert_eq!(printed(&output), "0 23\n40 2 0 7\n");
}

/// A folder on that path with a folder of the program's own name is not where the program is built.
#[test]
fn a_search_path_to_another_program_changes_nothing() {
    let unbuilt = Unbuilt::new("searched");
    let other = Unbuilt::new("found");
    let line = format!("export CDPATH='{}'; bash run 'an image'", other.folder.display());
    let output = unbuilt.shell(&line);
    assert_eq!((printed(&output), text(&output.stderr)), ("5\n", ANNOUNCED));
    assert!(unbuilt.is_asked() && !other.is_asked(), "another program was asked for");
}

#[test]
fn what_cannot_be_read_is_said_before_anything_is_built() {
    let unbuilt = Unbuilt::new("unreadable");
    for image in ["no such image", "crates", ""] {
        let output = unbuilt.run(&[image]);
        assert_eq!(complaint(&output), format!("./run: cannot read the image {image}\n"));
    }
    assert!(!unbuilt.is_asked(), "the toolchain was asked");
}

#[test]
fn one_image_is_asked_for() {
    let unbuilt = Unbuilt::new("usage");
    for images in [&[][..], &["an image", "another"]] {
        let output = unbuilt.run(images);
        assert_eq!(complaint(&output), "./run: which image? As ./run images/a.axcut\n");
    }
    assert!(!unbuilt.is_asked(), "the toolchain was asked");
}

#[test]
fn a_build_is_announced_and_nothing_else_is() {
    let unbuilt = Unbuilt::new("announced");
    let first = unbuilt.run(&["an image"]);
    assert_eq!((printed(&first), text(&first.stderr)), ("5\n", ANNOUNCED));
    let again = unbuilt.run(&["an image"]);
    assert_eq!((printed(&again), text(&again.stderr)), ("5\n", ""));
    let asked = fs::read_to_string(unbuilt.folder.join("asked")).expect("asked");
    assert_eq!(asked, "run\nrun\n");
}

#[test]
fn a_source_that_is_newer_than_the_program_is_announced() {
    let unbuilt = Unbuilt::new("newer");
    printed(&unbuilt.run(&["an image"]));
    let later = SystemTime::now() + Duration::from_secs(3_600);
    let source = File::options().write(true).open(unbuilt.source()).expect("the source");
    source.set_modified(later).expect("a later time");
    let output = unbuilt.run(&["an image"]);
    assert_eq!((printed(&output), text(&output.stderr)), ("5\n", ANNOUNCED));
}

/// The toolchain's words are shown where it fails, and the program is not run.
#[test]
fn a_build_that_fails_is_said() {
    let unbuilt = Unbuilt::new("failing");
    printed(&unbuilt.run(&["an image"]));
    fs::write(unbuilt.source(), "fn main() { wrong }\n").expect("written");
    let output = unbuilt.run(&["an image"]);
    assert!(complaint(&output).ends_with("rt: axcut NOT PROVED\n"));
}
