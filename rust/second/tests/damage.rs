//! Damaged images: each refusal number at many places, known faults where they are known, and no
//! byte string that the check cannot take.

mod common;

use std::collections::{BTreeMap, BTreeSet};

use common::{accepted, verdict};
use second::assemble::{assemble_with_items, Assembled, ItemKind};
use second::damage::{
    byte_changes, cut, damaged, grown, hand_made, image_like_bytes, random_bytes, spoiled_items,
    truncations, truncations_with_length,
};
use second::generate::{self, Profile};
use second::random::Random;
use second::{check, lines};

const SMALL: [Profile; 3] = [Profile::Tiny, Profile::Typical, Profile::Looping];

fn assembled(seed: u64, profile: Profile) -> Assembled {
    assemble_with_items(&generate::program(seed, profile)).expect("generated")
}

#[test]
fn images_made_by_hand_get_their_verdicts() {
    let cases = hand_made();
    for case in &cases {
        assert_eq!(check(&case.image), case.verdict, "{}", case.name);
    }
    let numbers: BTreeSet<u8> = cases.iter().map(|case| case.verdict.number).collect();
    assert_eq!(numbers, (1..=11).collect());
    assert!(cases.len() >= 150, "{}", cases.len());
}

#[test]
fn each_item_made_unlawful_is_the_first_fault() {
    let mut kinds = BTreeSet::new();
    for profile in Profile::ALL {
        let count = if profile == Profile::Large { 2 } else { 40 };
        for seed in 0..count {
            let assembled = assembled(seed, profile);
            kinds.extend(assembled.items.iter().map(|item| item.kind));
            // In a large image every seventh item will do.
            let step = if assembled.image.len() > 2_000 { 7 } else { 1 };
            for spoiled in spoiled_items(&assembled).step_by(step) {
                assert_eq!(check(&spoiled.image), spoiled.verdict, "{profile:?} {seed}");
            }
        }
    }
    assert!(kinds.contains(&ItemKind::Version) && kinds.contains(&ItemKind::ClauseLength));
    assert_eq!(kinds.len(), 24);
}

#[test]
fn an_image_cut_anywhere_lacks_the_item_there() {
    for profile in Profile::ALL {
        let count = if profile == Profile::Large { 1 } else { 25 };
        for seed in 0..count {
            let assembled = assembled(seed, profile);
            let step = if assembled.image.len() > 2_000 { 5 } else { 1 };
            for offset in (3..assembled.image.len()).step_by(step) {
                let cut = cut(&assembled, offset);
                assert_eq!(check(&cut.image), cut.verdict, "{profile:?} {seed} {offset}");
            }
        }
    }
}

#[test]
fn one_byte_more_in_any_region_is_left() {
    let mut random = Random::new(3);
    for profile in Profile::ALL {
        let count = if profile == Profile::Large { 4 } else { 40 };
        for seed in 0..count {
            let assembled = assembled(seed, profile);
            let regions = assembled.regions.iter().map(Some).chain([None]);
            for region in regions {
                if let Some(spoiled) = grown(&assembled, region, random.byte()) {
                    assert_eq!(check(&spoiled.image), spoiled.verdict, "{profile:?} {seed}");
                }
            }
        }
    }
}

#[test]
fn random_damage_meets_every_refusal_at_many_places() {
    let mut places: BTreeMap<u8, BTreeSet<u32>> = BTreeMap::new();
    let mut random = Random::new(11);
    for profile in Profile::ALL {
        let count = if profile == Profile::Large { 40 } else { 300 };
        for seed in 0..count {
            let image = generate::image(seed, profile);
            for _ in 0..20 {
                let verdict = check(&damaged(&image, &mut random));
                places.entry(verdict.number).or_default().insert(verdict.offset);
            }
        }
    }
    assert_eq!(places.keys().copied().collect::<Vec<u8>>(), (0..=11).collect::<Vec<u8>>());
    assert_eq!(places[&1], BTreeSet::from([0, 1]));
    assert_eq!(places[&2], BTreeSet::from([0]));
    for number in 3..=11 {
        assert!(places[&number].len() >= 50, "{number}: {}", places[&number].len());
    }
}

#[test]
fn a_byte_changed_at_every_place() {
    let mut random = Random::new(5);
    let mut refused = 0;
    let mut all = 0;
    for profile in SMALL {
        for seed in 0..60 {
            let image = generate::image(seed, profile);
            for changed in byte_changes(&image, &mut random) {
                let verdict = check(&changed);
                assert!(verdict.offset as usize <= changed.len());
                refused += usize::from(!verdict.is_accepted());
                all += 1;
            }
        }
    }
    assert!(refused * 10 > all * 4 && refused < all, "{refused} of {all}");
}

#[test]
fn every_truncation_is_refused() {
    for profile in SMALL {
        for seed in 0..60 {
            let image = generate::image(seed, profile);
            for (length, short) in truncations(&image).enumerate() {
                let expected = if length < 3 { (1, 0) } else { (1, 1) };
                assert_eq!(verdict(&short), expected);
            }
            for (length, short) in truncations_with_length(&image).enumerate() {
                let (number, offset) = verdict(&short);
                assert_eq!(number, if length < 3 { 1 } else { 3 });
                assert!(offset as usize <= length);
            }
        }
    }
}

#[test]
fn any_bytes_are_taken() {
    let mut random = Random::new(17);
    for _ in 0..20_000 {
        let length = random.below(120);
        let bytes = random_bytes(length, &mut random);
        assert!(check(&bytes).offset as usize <= bytes.len());
        let bytes = image_like_bytes(length, &mut random);
        assert!(check(&bytes).offset as usize <= bytes.len());
    }
}

#[test]
fn sizes_around_the_limits() {
    let mut random = Random::new(19);
    for length in (0..=4).chain(16_383..=16_386).chain([65_538, 65_539, 100_000]) {
        for _ in 0..20 {
            let any = random_bytes(length, &mut random);
            let like = image_like_bytes(length, &mut random);
            for bytes in [any, like] {
                let (number, offset) = verdict(&bytes);
                assert_ne!(number, 0);
                if !(3..=16_384).contains(&length) {
                    assert_eq!((number, offset), (1, 0));
                }
                assert_eq!(lines(&bytes).lines().count(), 2);
            }
        }
    }
}

#[test]
fn all_short_byte_strings_behind_a_good_start() {
    let values = [0, 1, 2, 3, 4, 5, 6, 7, 64, 65, 255];
    let mut answers = BTreeSet::new();
    for first in values {
        for second in values {
            for third in values {
                for fourth in values {
                    let image = [1, 0, 4, first, second, third, fourth];
                    answers.insert(verdict(&image));
                }
            }
        }
    }
    assert!(answers.iter().all(|&(number, offset)| number != 0 && (3..=7).contains(&offset)));
    let numbers: BTreeSet<u8> = answers.iter().map(|&(number, _)| number).collect();
    assert_eq!(numbers, BTreeSet::from([3, 4, 6]), "{answers:?}");
}

/// The shortest image: no signature, one label without parameters that jumps to itself.
#[test]
fn the_shortest_image_is_accepted_and_no_shorter_one() {
    let shortest = [1, 0, 7, 0, 1, 0, 0, 2, 0, 0];
    assert_eq!(verdict(&shortest), accepted(&shortest));
    for short in truncations_with_length(&shortest) {
        assert_ne!(verdict(&short).0, 0);
    }
}
