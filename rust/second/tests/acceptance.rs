//! Acceptance decided twice: by the check's walk, and by typing over terms with the layout as
//! their bytes. The two must agree on every byte string.

use second::assemble::{assemble, assemble_with_items};
use second::check;
use second::damage::{
    byte_changes, damaged, hand_made, image_like_bytes, random_bytes, truncations_with_length,
};
use second::decode::decode;
use second::generate::{self, Profile};
use second::random::Random;
use second::terms::{Label, Program, Statement, Straight};
use second::typing::{is_image_of_well_typed, is_well_typed};

fn assert_agreement(image: &[u8]) -> bool {
    let accepted = check(image).is_accepted();
    assert_eq!(accepted, is_image_of_well_typed(image), "{:?} on {image:?}", check(image));
    accepted
}

#[test]
fn on_generated_images() {
    for profile in Profile::ALL {
        let count = if profile == Profile::Large { 200 } else { 800 };
        for seed in 0..count {
            assert!(assert_agreement(&generate::image(seed, profile)));
        }
    }
}

#[test]
fn on_images_made_by_hand() {
    for case in hand_made() {
        assert!(!assert_agreement(&case.image), "{}", case.name);
    }
}

#[test]
fn on_damaged_images() {
    let mut random = Random::new(23);
    let mut accepted = 0;
    let mut all = 0;
    for profile in Profile::ALL {
        let count = if profile == Profile::Large { 40 } else { 500 };
        for seed in 0..count {
            let image = generate::image(seed, profile);
            for _ in 0..20 {
                accepted += usize::from(assert_agreement(&damaged(&image, &mut random)));
                all += 1;
            }
        }
    }
    // Damage that is still lawful keeps the question open in both directions.
    assert!(accepted * 20 > all && accepted * 2 < all, "{accepted} of {all}");
}

#[test]
fn on_every_byte_changed_and_every_truncation() {
    let mut random = Random::new(29);
    for profile in [Profile::Tiny, Profile::Typical, Profile::Looping] {
        for seed in 0..40 {
            let image = generate::image(seed, profile);
            byte_changes(&image, &mut random).for_each(|image| {
                assert_agreement(&image);
            });
            truncations_with_length(&image).for_each(|image| {
                assert_agreement(&image);
            });
        }
    }
}

/// Every value of every byte of a small image.
#[test]
fn on_every_value_of_every_byte() {
    for seed in 0..12 {
        let image = generate::image(seed, Profile::Tiny);
        for place in 0..image.len() {
            let mut changed = image.clone();
            for value in 0..=255 {
                changed[place] = value;
                assert_agreement(&changed);
            }
        }
    }
}

#[test]
fn on_random_bytes() {
    let mut random = Random::new(31);
    for _ in 0..20_000 {
        let length = random.below(60);
        assert_agreement(&random_bytes(length, &mut random));
        assert_agreement(&image_like_bytes(length, &mut random));
    }
}

#[test]
fn the_generator_writes_well_typed_terms() {
    for profile in Profile::ALL {
        for seed in 0..100 {
            assert!(is_well_typed(&generate::program(seed, profile)));
        }
    }
}

#[test]
fn terms_and_bytes_are_each_other_s() {
    for profile in Profile::ALL {
        for seed in 0..150 {
            let program = generate::program(seed, profile);
            let image = assemble(&program).expect("generated");
            let read = decode(&image).expect("accepted");
            assert_eq!(assemble(&read).as_deref(), Some(image.as_slice()));
            assert_eq!(read.without_offsets(), program);
        }
    }
}

/// A count above 255 or a length above 65,535 has no bytes.
#[test]
fn what_does_not_fit_has_no_bytes() {
    let label = |body| Label { parameters: vec![], body };
    let program = |labels| Program { signatures: vec![], labels };
    let labels = |count| program(vec![label(Statement::jump(0)); count]);
    assert!(assemble(&labels(255)).is_some());
    assert!(assemble(&labels(256)).is_none());
    let line = |count| {
        let straight = vec![Straight::Substitute(vec![]); count];
        program(vec![label(Statement { straight, ..Statement::jump(0) })])
    };
    assert_eq!(assemble(&line(32_763)).map(|image| image.len()), Some(65_536));
    assert!(assemble(&line(32_766)).is_none());
}

/// Items follow one another without gap, and every region lies within the image.
#[test]
fn items_cover_the_image() {
    for seed in 0..200 {
        let program = generate::program(seed, Profile::Typical);
        let assembled = assemble_with_items(&program).expect("generated");
        let offsets: Vec<usize> = assembled.items.iter().map(|item| item.offset).collect();
        assert!(offsets.windows(2).all(|pair| matches!(pair[1] - pair[0], 1 | 2 | 8)));
        assert_eq!(offsets[..3], [0, 1, 3]);
        assert!(assembled.regions.iter().all(|region| {
            let length = [assembled.image[region.field], assembled.image[region.field + 1]];
            region.field + 2 + usize::from(u16::from_be_bytes(length)) == region.end
        }));
    }
}
