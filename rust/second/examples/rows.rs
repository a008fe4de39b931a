//! Prints rows for the definitions, with this crate's answers, as antt: `cargo run --release --example rows -- SEED COUNT`.
//!
//! The rows go into a scratch crate above `definitions`, where `map computed rows ≡ rows` by `refl`
//! compares the definitions themselves with this crate. Seed 0 begins with the hand-made images.
//! docs/DECISIONS.md says what was compared.

use second::assemble::assemble;
use second::damage;
use second::generate::{self, Profile};
use second::random::Random;
use second::{check, run};

/// Longer images are left out: the rows are read as terms.
const MOST_BYTES: usize = 600;

fn list(numbers: impl Iterator<Item = u64>) -> String {
    numbers.map(|n| format!("{n} ∷ ")).collect::<String>() + "[]"
}

fn checks(image: &[u8]) -> String {
    let verdict = check(image);
    format!(
        "checks ({}) (fault {} {})",
        list(image.iter().map(|&b| b.into())),
        verdict.number,
        verdict.offset
    )
}

fn runs(image: &[u8], args: &[u64], fuel: u32, words: usize) -> String {
    let mut table: Vec<u64> = (0..words as u64).map(|i| 1000 + i).collect();
    let before = list(table.iter().copied());
    let answer = run(image, args, fuel, &mut table);
    format!(
        "runs ({}) ({}) {fuel} ({before}) (says {} {} {} {} ({}))",
        list(image.iter().map(|&b| b.into())),
        list(args.iter().copied()),
        answer.number,
        answer.steps,
        answer.words,
        answer.value,
        list(table.iter().copied())
    )
}

fn main() {
    let mut words = std::env::args().skip(1).map(|word| word.parse::<u64>().expect("a number"));
    let (seed, count) = (words.next().unwrap_or(1), words.next().unwrap_or(100));
    let profiles = Profile::ALL;
    let mut rows: Vec<String> = Vec::new();
    if seed == 0 {
        let short = damage::hand_made().into_iter().filter(|made| made.image.len() <= MOST_BYTES);
        rows.extend(short.map(|made| checks(&made.image)));
    }
    let mut random = Random::new(seed);
    for i in 0..count {
        let program =
            generate::program(seed * 1_000_003 + i, profiles[i as usize % profiles.len()]);
        let image = assemble(&program).expect("a generated program has bytes");
        if image.len() > MOST_BYTES {
            continue;
        }
        rows.push(checks(&image));
        rows.push(checks(&damage::damaged(&image, &mut random)));
        rows.push(checks(&damage::damaged(&image, &mut random)));
        let args = generate::arguments(&program, &mut random);
        rows.push(runs(
            &image,
            &args,
            [0, 1, 7, 60, 200][i as usize % 5],
            [0, 2, 9, 40][i as usize % 4],
        ));
    }
    println!("{}", rows.join("\n    ∷ ") + "\n    ∷ []");
}
