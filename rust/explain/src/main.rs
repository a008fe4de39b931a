//! `axcut-explain`: says in words what the proved check and run answer for an image.
//!
//! It ends with 0 where it said so, whatever the answer is, and with 2 where the command line or
//! the file does not do.

use std::env;
use std::ffi::OsString;
use std::fs::File;
use std::io::{self, Read, Write};
use std::process::ExitCode;

use explain::command::{command, Command, USAGE};
use explain::explain;
use explain::text::MOST_BYTES;

fn main() -> ExitCode {
    let said = answer().and_then(|text| {
        let written = io::stdout().write_all(text.as_bytes());
        written.map_err(|error| error.to_string())
    });
    match said {
        Ok(()) => ExitCode::SUCCESS,
        Err(fault) => {
            eprintln!("axcut-explain: {fault}");
            ExitCode::from(2)
        }
    }
}

/// What the command line asks for.
fn answer() -> Result<String, String> {
    let words: Result<Vec<String>, OsString> =
        env::args_os().skip(1).map(OsString::into_string).collect();
    let words = words.map_err(|word| format!("{} is not text", word.display()))?;
    match command(&words).map_err(|fault| format!("{fault}\n\n{USAGE}"))? {
        Command::Help => Ok(USAGE.into()),
        Command::Explain(file, given) => {
            let image = read(&file).map_err(|error| format!("{file}: {error}"))?;
            Ok(explain(&file, &image, &given))
        }
    }
}

/// The file's bytes, or the first of them where they are too many for an image anyway.
fn read(file: &str) -> io::Result<Vec<u8>> {
    let mut image = Vec::new();
    File::open(file)?.take(MOST_BYTES as u64 + 1).read_to_end(&mut image)?;
    Ok(image)
}
