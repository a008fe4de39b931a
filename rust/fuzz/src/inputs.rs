//! Inputs: those to begin with, and those made from others.

use second::assemble::{assemble, assemble_with_items, Assembled};
use second::damage::{damaged, hand_made, with_length};
use second::decode::decode;
use second::generate::{self, Profile};
use second::layout::{MOST_BYTES, MOST_WORDS, START};
use second::random::Random;
use second::terms::{Program, Statement};

use crate::compare::MOST_LENT;

/// Fuel with which a run without an end is soon done.
const LARGE: u32 = 20_000;

/// Images A, B and C of document 01.
const SHIPPED: [&[u8]; 3] = [
    include_bytes!("../../../images/a.axcut"),
    include_bytes!("../../../images/b.axcut"),
    include_bytes!("../../../images/c.axcut"),
];

/// What a run is called with, and with its image the check.
#[derive(Clone, Debug)]
pub(crate) struct Input {
    pub(crate) image: Vec<u8>,
    pub(crate) args: Vec<u64>,
    pub(crate) fuel: u32,
    /// Words of the table that is lent.
    pub(crate) words: usize,
}

/// Document 01's images, those made by hand, and some of every profile.
pub(crate) fn seeds(random: &mut Random) -> Vec<Input> {
    let mut images = SHIPPED.map(<[u8]>::to_vec).to_vec();
    images.extend(hand_made().into_iter().map(|case| case.image));
    for profile in Profile::ALL {
        let count = if profile == Profile::Large { 2 } else { 20 };
        images.extend((0..count).map(|_| generate::image(random.bits(), profile)));
    }
    let input = |image: Vec<u8>| {
        let args = arguments(&image, random).unwrap_or_default();
        Input { image, args, fuel: 2_000, words: 1_024 }
    };
    images.into_iter().map(input).collect()
}

/// As many arguments as label 0 takes, where the bytes say it.
fn arguments(image: &[u8], random: &mut Random) -> Option<Vec<u64>> {
    let program = decode(image).filter(|program| !program.labels.is_empty());
    program.map(|program| generate::arguments(&program, random))
}

/// An input like the first; some have a part of the other.
pub(crate) fn mutated(one: &Input, other: &Input, random: &mut Random) -> Input {
    let mut input = one.clone();
    if random.one_in(4) {
        change_limits(&mut input, random);
    } else {
        input.image = changed_image(&one.image, &other.image, random);
        input.image.truncate(MOST_BYTES + 2);
    }
    if random.one_in(2) {
        input.args = arguments(&input.image, random).unwrap_or(input.args);
    }
    // A run without an end would go on for a minute.
    if input.fuel > LARGE && end(&input, input.words).number == second::FUEL_SPENT {
        input.fuel = LARGE;
    }
    input
}

/// How the second opinion's run ends with large fuel.
fn end(input: &Input, words: usize) -> second::Answer {
    second::run(&input.image, &input.args, LARGE, &mut vec![0; words])
}

/// Other arguments, fuel or room, by chance or around where the run ends.
fn change_limits(input: &mut Input, random: &mut Random) {
    let second::Answer { steps, words, .. } = end(input, MOST_WORDS);
    let near = |number: u32| [number.saturating_sub(1), number, number + 1, 0, 1, 2, 64];
    match random.below(8) {
        0 => input.fuel = random.bits() as u32 >> random.below(32),
        1..=3 => input.fuel = near(steps)[random.below(7)],
        4 => input.words = random.between(MOST_WORDS - 1, MOST_LENT),
        5..=6 => input.words = near(words)[random.below(7)] as usize,
        _ => input.args = (0..random.up_to(34)).map(|_| random.integer()).collect(),
    }
    input.words = input.words.min(MOST_LENT);
}

/// Another image. Most stay near lawful ones: their lengths are set right.
fn changed_image(one: &[u8], other: &[u8], random: &mut Random) -> Vec<u8> {
    let changed = match random.below(10) {
        0 => random.pick(&Profile::ALL).map(|profile| generate::image(random.bits(), profile)),
        1 => {
            let (first, second) = (random.below(one.len() + 1), random.below(other.len() + 1));
            Some(with_length([&one[..first], &other[second..]].concat()))
        }
        2..=3 => crossed(one, other, random),
        4..=5 => resized(one, other, random),
        _ => None,
    };
    changed.unwrap_or_else(|| damaged(one, random))
}

/// One program with a statement of the other in it.
fn crossed(one: &[u8], other: &[u8], random: &mut Random) -> Option<Vec<u8>> {
    let (mut program, mut giver) = (decode(one)?, decode(other)?);
    let given = statement(&mut giver, random)?.clone();
    *statement(&mut program, random)? = given;
    assemble(&program)
}

/// Any statement of the program that is a body or a clause's.
fn statement<'p>(program: &'p mut Program, random: &mut Random) -> Option<&'p mut Statement> {
    let label = random.below(program.labels.len().max(1));
    let mut found = &mut program.labels.get_mut(label)?.body;
    while !found.clause_statements().is_empty() && !random.one_in(3) {
        let mut inside = found.clause_statements_mut();
        found = inside.swap_remove(random.below(inside.len()));
    }
    Some(found)
}

/// Some bytes of the other image in place of some of this one, with every length around them right.
fn resized(one: &[u8], other: &[u8], random: &mut Random) -> Option<Vec<u8>> {
    let Assembled { mut image, regions, .. } = assemble_with_items(&decode(one)?)?;
    let place = random.between(START, image.len());
    let taken = random.up_to(20).min(image.len() - place);
    let from = random.below(other.len() + 1);
    let put = &other[from..(from + random.up_to(20)).min(other.len())];
    for region in regions {
        let first = region.field + 2;
        if first <= place && place + taken <= region.end {
            let length = (region.end - first + put.len() - taken) as u16;
            image[region.field..first].copy_from_slice(&length.to_be_bytes());
        }
    }
    image.splice(place..place + taken, put.iter().copied());
    Some(with_length(image))
}
