//! Links the static library of the proved check and run. Builds it first, by the repository's
//! `./build-lib`, where it is missing or older than what it is built from.

use std::fs;
use std::path::{Path, PathBuf};
use std::process::Command;
use std::time::SystemTime;

/// The crates that the library is built from.
const CRATES: [&str; 6] = ["definitions", "exactness", "lockstep", "checker", "runner", "boundary"];
/// The folders of a crate that have its sources; the toolchain keeps its own work beside them.
const FOLDERS: [&str; 3] = ["src", "specs", "proofs"];
/// Where `./build-lib` puts the library.
const FOLDER: &str = "target/staticlib";

fn main() {
    let repository = repository();
    let library = repository.join(FOLDER).join("libboundary.a");
    let sources = sources(&repository);
    refuse_other_processors();
    if !is_newer(&library, &sources) {
        build(&repository);
    }
    assert!(library.exists(), "{} is missing: run ./build-lib", library.display());
    for path in sources.iter().chain([&library]) {
        println!("cargo:rerun-if-changed={}", path.display());
    }
    println!("cargo:rustc-link-search=native={}", repository.join(FOLDER).display());
    println!("cargo:rustc-link-lib=static=boundary");
}

/// The repository's root, two folders above this crate.
fn repository() -> PathBuf {
    let here = std::env::var_os("CARGO_MANIFEST_DIR").expect("cargo names the crate's folder");
    let root = Path::new(&here).join("../..");
    root.canonicalize().expect("the crate stands in its repository")
}

/// What the library is built from: the list of the crates, and the folders of each that are there.
fn sources(repository: &Path) -> Vec<PathBuf> {
    let folders = CRATES.iter().flat_map(|name| {
        let folder = repository.join("crates").join(name);
        FOLDERS.map(|inner| folder.join(inner)).into_iter().filter(|inner| inner.exists())
    });
    std::iter::once(repository.join("crates.txt")).chain(folders).collect()
}

/// The library holds code for one processor, and elsewhere the linker's words would not say so.
fn refuse_other_processors() {
    let processor = std::env::var("CARGO_CFG_TARGET_ARCH").unwrap_or_default();
    assert_eq!(processor, "x86_64", "the proved library is for x86-64 alone");
}

/// Whether the library is there and newer than all that it is built from.
fn is_newer(library: &Path, sources: &[PathBuf]) -> bool {
    let Ok(built) = fs::metadata(library).and_then(|data| data.modified()) else {
        return false;
    };
    sources.iter().all(|source| newest(source) <= built)
}

/// When the file, or the newest file or folder in the folder, was changed. A folder counts too: its
/// time changes when a file is removed from it.
fn newest(path: &Path) -> SystemTime {
    let changed = fs::metadata(path).and_then(|data| data.modified());
    let changed = changed.unwrap_or_else(|error| panic!("{}: {error}", path.display()));
    let inside = fs::read_dir(path).into_iter().flatten().flatten();
    inside.map(|entry| newest(&entry.path())).fold(changed, SystemTime::max)
}

/// Runs the one command that builds the library.
fn build(repository: &Path) {
    let output = Command::new("./build-lib").current_dir(repository).output();
    let output = output.unwrap_or_else(|error| panic!("./build-lib could not be run: {error}"));
    if !output.status.success() {
        let said = [output.stdout, output.stderr].concat();
        let said = String::from_utf8_lossy(&said);
        panic!("the proved library was not built; run ./build-lib\n{said}");
    }
}
