//! The images that the repository ships, and the programs that they are the bytes of.
//!
//! Every file of `images/` has its source here: a program written as terms, which the second
//! opinion's assembler lays out. Nothing is typed as bytes.
//!
//! Variables are positions, 0 being the oldest entry. So a comment says what the environment is,
//! oldest first: `day, date` are two entries, the day at 0 and the date at 1.

#![forbid(unsafe_code)]
#![warn(missing_docs)]

mod countdown;
mod deed;
mod document;
mod no_room;
mod squares;

use std::path::{Path, PathBuf};
use std::{fs, io};

use second::assemble::assemble;
use second::terms::{Label, Program, Signature, Statement, Type};

/// The shipped programs, by the names of their files.
pub fn shipped() -> Vec<(&'static str, Program)> {
    vec![
        ("a.axcut", document::a()),
        ("b.axcut", document::b()),
        ("c.axcut", document::c()),
        ("deed.axcut", deed::right()),
        ("deed-wrong-order.axcut", deed::wrong_order()),
        ("countdown.axcut", countdown::countdown()),
        ("squares.axcut", squares::squares()),
        ("no-room.axcut", no_room::no_room()),
    ]
}

/// The bytes of a shipped program.
pub fn image(program: &Program) -> Vec<u8> {
    assemble(program).expect("every length of a small program fits its two bytes")
}

/// Writes every shipped image to a folder that is there.
pub fn write(folder: &Path) -> io::Result<()> {
    shipped().iter().try_for_each(|(file, program)| fs::write(folder.join(file), image(program)))
}

/// The repository's folder of images.
pub fn folder() -> PathBuf {
    Path::new(env!("CARGO_MANIFEST_DIR")).join("../../images")
}

/// A program: for each signature its symbols' parameters, for each label its own and its body.
fn program(signatures: &[&[&[Type]]], labels: Vec<(&[Type], Statement)>) -> Program {
    let signature = |symbols: &&[&[Type]]| Signature {
        symbols: symbols.iter().map(|parameters| parameters.to_vec()).collect(),
    };
    let label = |(parameters, body): (&[Type], _)| Label { parameters: parameters.to_vec(), body };
    Program {
        signatures: signatures.iter().map(signature).collect(),
        labels: labels.into_iter().map(label).collect(),
    }
}
