//! Images that document 01's "Refusal numbers" are about: accepted ones spoiled by chance, spoiled
//! so that the first fault is known, and made by hand for each fault at each of its places.
//!
//! All of it is decided by the image and the seed.

mod bytes;
mod hand_made;
mod items;
mod terms;

pub use bytes::{
    byte_changes, image_like_bytes, random_bytes, truncations, truncations_with_length, with_length,
};
pub use hand_made::{hand_made, HandMade};
pub use items::{cut, grown, spoiled_items, Spoiled};

use crate::assemble::assemble_with_items;
use crate::decode::decode;
use crate::random::Random;

/// An image with one to three damages of any kind. It may still be accepted.
pub fn damaged(image: &[u8], random: &mut Random) -> Vec<u8> {
    let mut damaged = one_damage(image, random);
    while random.one_in(4) {
        damaged = one_damage(&damaged, random);
    }
    damaged
}

/// Bytes that spell no program are damaged as bytes; others also by item and by term.
fn one_damage(image: &[u8], random: &mut Random) -> Vec<u8> {
    let kind = random.below(3);
    let program = if kind == 0 { None } else { decode(image) };
    let Some(program) = program else {
        return bytes::one_change(image, random);
    };
    if kind == 1 {
        return terms::one_change(program, random).unwrap_or_else(|| image.to_vec());
    }
    match assemble_with_items(&program) {
        Some(assembled) => items::one_change(&assembled, random),
        None => bytes::one_change(image, random),
    }
}
