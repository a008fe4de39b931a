//! Hands the build's settings on to the program, which says them beside its figures.

fn main() {
    let of = |name| std::env::var(name).unwrap_or_default();
    println!("cargo:rustc-env=PROFILE={}", of("PROFILE"));
    println!("cargo:rustc-env=OPT_LEVEL={}", of("OPT_LEVEL"));
    println!("cargo:rerun-if-changed=build.rs");
}
