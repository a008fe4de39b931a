//! What README.md shows of `axcut-explain` is what it prints.

#[path = "../../axcut/tests/shown/mod.rs"]
mod shown;

use std::process::Command;

use shown::{commands, repository};

/// What the program prints in the repository, for these words of a command line.
fn printed(words: &[String]) -> String {
    let program = Command::new(env!("CARGO_BIN_EXE_axcut-explain"))
        .args(words)
        .current_dir(repository())
        .output()
        .expect("the program ran");
    String::from_utf8(program.stdout).expect("text")
}

#[test]
fn what_is_shown_is_what_is_printed() {
    let mut images = Vec::new();
    for shown in commands() {
        if let Some(words) = shown.after(&["./explain"]) {
            assert_eq!(shown.printed, printed(words));
            images.push(words[0].clone());
        }
    }
    assert_eq!(images, ["images/deed.axcut", "images/deed-wrong-order.axcut"]);
}
