//! Damage to bytes, whatever they are: document 01's check takes any byte string.

use crate::layout::{START, VERSION};
use crate::random::Random;

/// The image with its length field set to what it should be, where it has one and it fits.
pub fn with_length(mut image: Vec<u8>) -> Vec<u8> {
    let length = image.len().checked_sub(START).and_then(|length| u16::try_from(length).ok());
    if let Some(length) = length {
        image[1..START].copy_from_slice(&length.to_be_bytes());
    }
    image
}

/// For every byte of the image, the image with that byte changed to another value.
pub fn byte_changes<'a>(
    image: &'a [u8],
    random: &'a mut Random,
) -> impl Iterator<Item = Vec<u8>> + 'a {
    (0..image.len()).map(|place| {
        let mut changed = image.to_vec();
        change_byte(&mut changed, place, random);
        changed
    })
}

/// Every proper beginning of the image, as it is.
pub fn truncations(image: &[u8]) -> impl Iterator<Item = Vec<u8>> + '_ {
    (0..image.len()).map(|length| image[..length].to_vec())
}

/// Every proper beginning of the image, with the length field set right.
pub fn truncations_with_length(image: &[u8]) -> impl Iterator<Item = Vec<u8>> + '_ {
    truncations(image).map(with_length)
}

/// Any bytes.
pub fn random_bytes(length: usize, random: &mut Random) -> Vec<u8> {
    (0..length).map(|_| random.byte()).collect()
}

/// Bytes behind a good start, mostly small: such bytes often pass several tests.
pub fn image_like_bytes(length: usize, random: &mut Random) -> Vec<u8> {
    let mut bytes: Vec<u8> = (0..length)
        .map(|_| if random.one_in(16) { random.byte() } else { random.below(4) as u8 })
        .collect();
    if let Some(version) = bytes.first_mut() {
        *version = VERSION;
    }
    with_length(bytes)
}

/// One change of bytes.
pub(super) fn one_change(image: &[u8], random: &mut Random) -> Vec<u8> {
    if image.is_empty() {
        return random_bytes(random.below(4), random);
    }
    let place = random.below(image.len());
    let run = 1 + random.up_to(12);
    let end = (place + run).min(image.len());
    let mut changed = image.to_vec();
    match random.below(6) {
        0 | 1 => change_byte(&mut changed, place, random),
        2 => changed.truncate(place),
        3 => {
            let inserted = random_bytes(run, random);
            changed.splice(place..place, inserted);
        }
        4 => {
            let repeated = image[place..end].to_vec();
            changed.splice(end..end, repeated);
        }
        _ => {
            changed.drain(place..end);
        }
    }
    if random.one_in(3) {
        changed
    } else {
        with_length(changed)
    }
}

/// Changes a byte: by one, to an extreme, or to anything else.
fn change_byte(image: &mut [u8], place: usize, random: &mut Random) {
    let old = image[place];
    let new = match random.below(5) {
        0 => old.wrapping_add(1),
        1 => old.wrapping_sub(1),
        2 => 0,
        3 => u8::MAX,
        _ => random.byte(),
    };
    image[place] = if new == old { old ^ 1 } else { new };
}
