//! Writes every file of the repository's folder `images`: `cargo run --offline -p images`.

use std::io;

fn main() -> io::Result<()> {
    images::write(&images::folder())
}
