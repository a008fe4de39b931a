//! Document 01, "The run", last paragraph: the program.

use std::fs::File;
use std::io::{self, Read, Write};
use std::os::fd::AsFd;

use second::{lines, MOST_READ};

fn main() -> io::Result<()> {
    let image = read_standard_input()?;
    io::stdout().write_all(lines(&image).as_bytes())
}

/// At most 16,385 bytes. Standard input's own buffer would read on ahead, so the bytes are taken
/// from the file below it, and the rest is left for whoever reads next.
fn read_standard_input() -> io::Result<Vec<u8>> {
    let file = File::from(io::stdin().as_fd().try_clone_to_owned()?);
    let mut image = Vec::new();
    file.take(MOST_READ).read_to_end(&mut image)?;
    Ok(image)
}
