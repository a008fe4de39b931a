//! A host: asks a rule what to do with a deed. `host IMAGE DAY DATE`

use std::error::Error;
use std::{env, fs};

use axcut::Ending;

/// How many statements a rule may perform, and how many words it is lent to store what it builds.
const FUEL: u32 = 100_000;
const WORDS: usize = 1_024;

/// What a rule exits with.
const KEEP: u64 = 0;
const LIST: u64 = 1;

/// What to do with a deed. Only an exit with 1 lists it; without a clear answer it stays.
fn advice(rule: &[u8], day: u64, date: u64) -> String {
    let verdict = axcut::check(rule);
    if !verdict.is_accepted() {
        return format!("keep, no answer: refused, {} at {}", verdict.number, verdict.offset);
    }
    let mut table = [0; WORDS];
    match axcut::run(rule, &[day, date], FUEL, &mut table).ending() {
        Ending::Exit(KEEP) => "keep".into(),
        Ending::Exit(LIST) => "list for deletion".into(),
        Ending::Exit(value) => format!("keep, no answer: exit with {value}"),
        Ending::FuelSpent => "keep, no answer: fuel spent".into(),
        Ending::RoomSpent => "keep, no answer: room spent".into(),
        Ending::Refused(number) => format!("keep, no answer: the run is refused, {number}"),
    }
}

/// What to do with the deed that the command line speaks of.
pub fn answer(words: &[String]) -> Result<String, Box<dyn Error>> {
    let [image, day, date] = words else {
        return Err("host IMAGE DAY DATE".into());
    };
    let rule = fs::read(image)?;
    Ok(advice(&rule, day.parse()?, date.parse()?))
}

fn main() -> Result<(), Box<dyn Error>> {
    let words: Vec<String> = env::args().skip(1).collect();
    println!("{}", answer(&words)?);
    Ok(())
}
