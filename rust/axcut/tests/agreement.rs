//! The proved check against the second opinion, on the same images in every run. Number and offset
//! are held to its check, which walks the bytes as the proved one does; acceptance is held to its
//! typing rules too, which know terms only.

#[path = "../../second/tests/common/mod.rs"]
mod common;

use std::io::Write;

use common::{image_of, with_bytes, A, B, C};
use second::assemble::{assemble_with_items, Assembled};
use second::damage::{
    cut, damaged, grown, hand_made, image_like_bytes, random_bytes, spoiled_items, truncations,
    truncations_with_length, with_length,
};
use second::generate::{self, Profile};
use second::random::Random;
use second::terms::{Statement, Straight, Type};
use second::typing::is_image_of_well_typed;

/// From it, all images are made.
const SEED: u64 = 47;
/// The numbers of accepted and of refused images: 0 to 11.
const NUMBERS: usize = 12;
/// The least and most bytes of an image, and those on either side.
const EDGES: [usize; 9] = [0, 1, 2, 3, 4, 16_383, 16_384, 16_385, 16_386];
/// Profiles whose images are short enough to be spoiled at every place.
const SMALL: [Profile; 3] = [Profile::Tiny, Profile::Typical, Profile::Looping];

/// Compares on one kind of image.
type Family = fn(&mut Tally);

/// How many images got each number.
#[derive(Default)]
struct Tally {
    met: [usize; NUMBERS],
}

impl Tally {
    /// Compares the opinions on an image, and counts it.
    fn compare(&mut self, image: &[u8]) {
        let proved = axcut::check(image);
        let second = second::check(image);
        let expected = (second.number, second.offset as usize);
        assert_eq!((proved.number, proved.offset), expected, "proved and second on {image:?}");
        let is_typed = is_image_of_well_typed(image);
        assert_eq!(proved.is_accepted(), is_typed, "proved and typing on {image:?}");
        self.met[usize::from(proved.number)] += 1;
    }

    fn compare_all(&mut self, images: impl Iterator<Item = Vec<u8>>) {
        images.for_each(|image| self.compare(&image));
    }

    /// Ends a family of images: says what it gave, and adds it to all of them.
    fn add(&mut self, family: &str, given: Tally) {
        given.say(family);
        for (sum, met) in self.met.iter_mut().zip(given.met) {
            *sum += met;
        }
    }

    fn total(&self) -> usize {
        self.met.iter().sum()
    }

    /// Writes the counts where the test harness shows them, also of a test that passes.
    fn say(&self, family: &str) {
        let line = format!("{family}: {} images, by number {:?}\n", self.total(), self.met);
        std::io::stderr().write_all(line.as_bytes()).expect("a place to write to");
    }
}

fn small_images(count: u64) -> impl Iterator<Item = Vec<u8>> {
    SMALL.into_iter().flat_map(move |profile| {
        (0..count).map(move |place| generate::image(SEED + place, profile))
    })
}

/// So many seeds of a profile, and few of those whose images are large.
fn seeds(profile: Profile, count: u64) -> std::ops::Range<u64> {
    let count = if profile == Profile::Large { count / 10 } else { count };
    SEED..SEED + count
}

fn well_typed(tally: &mut Tally) {
    for profile in Profile::ALL {
        tally.compare_all(seeds(profile, 2_000).map(|seed| generate::image(seed, profile)));
    }
}

/// Each refusal number at each of its places.
fn made_by_hand(tally: &mut Tally) {
    tally.compare_all(hand_made().into_iter().map(|case| case.image));
}

/// Well-typed images with one to three damages of any kind.
fn damaged_by_chance(tally: &mut Tally) {
    let mut random = Random::new(SEED);
    for profile in Profile::ALL {
        for seed in seeds(profile, 800) {
            let image = generate::image(seed, profile);
            (0..20).for_each(|_| tally.compare(&damaged(&image, &mut random)));
        }
    }
}

/// Well-typed images with one item made unlawful, cut off at an offset, or with one byte too many.
fn damaged_at_every_place(tally: &mut Tally) {
    for profile in SMALL {
        for seed in seeds(profile, 40) {
            let program = generate::program(seed, profile);
            let assembled = assemble_with_items(&program).expect("generated");
            tally.compare_all(spoiled_items(&assembled).map(|spoiled| spoiled.image));
            tally.compare_all(cuts(&assembled));
            tally.compare_all(growths(&assembled));
        }
    }
}

fn cuts(assembled: &Assembled) -> impl Iterator<Item = Vec<u8>> + '_ {
    (3..assembled.image.len()).map(|offset| cut(assembled, offset).image)
}

fn growths(assembled: &Assembled) -> impl Iterator<Item = Vec<u8>> + '_ {
    let regions = assembled.regions.iter().map(Some).chain([None]);
    regions.filter_map(|region| Some(grown(assembled, region, 0)?.image))
}

/// Every beginning of an image, as it is and with the length field set right.
fn cut_off_at_every_length(tally: &mut Tally) {
    for image in small_images(40).chain([A.to_vec(), B.to_vec(), C.to_vec()]) {
        tally.compare_all(truncations(&image));
        tally.compare_all(truncations_with_length(&image));
    }
}

/// Every other value of every byte of some images of a few dozen bytes.
fn every_single_byte_changed(tally: &mut Tally) {
    let tiny = (0..12).map(|place| generate::image(SEED + place, Profile::Tiny));
    for image in tiny.chain([A.to_vec(), B.to_vec(), C.to_vec()]) {
        for place in 0..image.len() {
            let others = (1..=u8::MAX).map(|change| image[place] ^ change);
            tally.compare_all(others.map(|byte| with_bytes(&image, place, &[byte])));
        }
    }
}

fn any_bytes(tally: &mut Tally) {
    let mut random = Random::new(SEED);
    for _ in 0..20_000 {
        let length = random.below(80);
        tally.compare(&random_bytes(length, &mut random));
        tally.compare(&image_like_bytes(length, &mut random));
    }
}

/// Byte strings as long as the shortest and the longest image, and a little shorter or longer.
fn sizes_at_the_edges(tally: &mut Tally) {
    let mut random = Random::new(SEED);
    for length in EDGES {
        for _ in 0..20 {
            tally.compare(&random_bytes(length, &mut random));
            tally.compare(&image_like_bytes(length, &mut random));
        }
        let zeros = vec![0; length];
        tally.compare(&zeros);
        let mut versioned = zeros;
        versioned.iter_mut().take(1).for_each(|version| *version = 1);
        tally.compare(&with_length(versioned));
    }
    tally.compare_all(EDGES.into_iter().filter(|&length| length > 100).map(line));
}

/// A well-typed line of statements of this many bytes, which must be at least 28: an image of 25
/// bytes with substitutes of 2 bytes put in and, for an odd number, one of 3.
fn line(length: usize) -> Vec<u8> {
    let fill = length - 25;
    let odd = fill % 2;
    let mut straight = vec![Straight::Substitute(vec![0]); odd];
    straight.extend(vec![Straight::Substitute(vec![]); (fill - 3 * odd) / 2]);
    let end = Statement::lit(7, Statement::exit(0));
    image_of(&[], &[(vec![Type::Ext], Statement { straight, ..end })])
}

#[test]
fn the_longest_image_is_accepted_and_no_longer_one() {
    let verdict = |length| {
        let image = line(length);
        assert_eq!(image.len(), length);
        let axcut::Verdict { number, offset } = axcut::check(&image);
        (number, offset)
    };
    assert_eq!(verdict(16_383), (0, 16_383));
    assert_eq!(verdict(16_384), (0, 16_384));
    assert_eq!(verdict(16_385), (1, 0));
    assert_eq!(verdict(16_386), (1, 0));
}

#[test]
fn on_every_kind_of_image() {
    let families: [(&str, Family); 8] = [
        ("well typed", well_typed),
        ("made by hand", made_by_hand),
        ("damaged by chance", damaged_by_chance),
        ("damaged at every place", damaged_at_every_place),
        ("cut off at every length", cut_off_at_every_length),
        ("every single byte changed", every_single_byte_changed),
        ("any bytes", any_bytes),
        ("sizes at the edges", sizes_at_the_edges),
    ];
    let mut all = Tally::default();
    for (name, family) in families {
        let mut tally = Tally::default();
        family(&mut tally);
        all.add(name, tally);
    }
    all.say("all");
    assert!(all.total() >= 200_000, "only {} images", all.total());
    assert!(all.met.iter().all(|&met| met > 0), "a number was not met: {:?}", all.met);
}
