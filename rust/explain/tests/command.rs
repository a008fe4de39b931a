//! The command `./explain`, from other folders than the repository's: it prints what the program
//! does that it builds.

use std::fs;
use std::path::Path;
use std::process::{Command, Output};

const REPOSITORY: &str = concat!(env!("CARGO_MANIFEST_DIR"), "/../..");

/// Runs a line of the shell in a folder.
fn shell(folder: &Path, line: &str) -> Output {
    let shell = Command::new("bash").args(["-c", line]).current_dir(folder).output();
    shell.expect("a shell")
}

fn text(bytes: &[u8]) -> &str {
    std::str::from_utf8(bytes).expect("text")
}

/// What a command prints in a folder of the repository.
fn printed(folder: &str, line: &str) -> String {
    let output = shell(&Path::new(REPOSITORY).join(folder), line);
    assert!(output.status.success(), "{}", text(&output.stderr));
    text(&output.stdout).into()
}

#[test]
fn a_shipped_image_from_other_folders() {
    let program = env!("CARGO_BIN_EXE_axcut-explain");
    for (folder, command, words) in [
        (".", "./explain", "images/a.axcut"),
        ("images", "../explain", "deed.axcut --args 740 700"),
        ("rust/axcut", "../../explain", "../../images/deed-wrong-order.axcut"),
    ] {
        let shown = printed(folder, &format!("{command} {words}"));
        assert_eq!(shown, printed(folder, &format!("'{program}' {words}")), "{words} in {folder}");
    }
}

#[test]
fn a_missing_image_is_said() {
    let output = shell(&Path::new(REPOSITORY).join("images"), "../explain 'no such image'");
    assert_eq!(output.status.code(), Some(2));
    let said = text(&output.stderr);
    assert!(said.starts_with("axcut-explain: no such image: "), "{said}");
}

/// In a folder whose name has a space, with a stand-in for cargo: every argument comes through as
/// it is, and the library's long first build is announced where there is no library yet.
#[test]
fn a_first_build_is_announced() {
    let folder = Path::new(env!("CARGO_TARGET_TMPDIR")).join("explain elsewhere");
    let _ = fs::remove_dir_all(&folder); // what a test that was broken off left there
    fs::create_dir_all(folder.join("target/staticlib")).expect("a folder of its own");
    fs::copy(format!("{REPOSITORY}/explain"), folder.join("explain")).expect("copied");
    let explain = || {
        let stand_in = concat!(env!("CARGO_MANIFEST_DIR"), "/tests/stand_in");
        let line = format!("PATH='{stand_in}':$PATH bash './explain' 'an image' --args 5 9");
        shell(&folder, &line)
    };
    let first = explain();
    let said = "./explain: proving and building the library first, which takes some minutes\n";
    assert_eq!(text(&first.stderr), said);
    assert!(text(&first.stdout).ends_with("--\nan image\n--args\n5\n9\n"));
    fs::write(folder.join("target/staticlib/libboundary.a"), "").expect("written");
    let again = explain();
    assert_eq!(text(&again.stderr), "");
    assert_eq!(again.stdout, first.stdout);
    fs::remove_dir_all(&folder).expect("removed");
}
