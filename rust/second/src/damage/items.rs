//! Damage to known items and regions of an accepted image, most of it with the fault that document
//! 01's "Refusal numbers" must then give: all before the place is as it was, so nothing earlier can
//! be at fault.

use super::bytes::with_length;
use crate::answer::{Fault, Verdict};
use crate::assemble::{Assembled, Item, ItemKind, Region};
use crate::layout::{MOST_BYTES, START};
use crate::random::Random;

/// A spoiled image and the verdict that it must get.
#[derive(Clone, PartialEq, Eq, Debug)]
pub struct Spoiled {
    /// The bytes.
    pub image: Vec<u8>,
    /// The one right verdict.
    pub verdict: Verdict,
}

/// For every item that can be made unlawful by itself, the accepted image with it so.
pub fn spoiled_items(accepted: &Assembled) -> impl Iterator<Item = Spoiled> + '_ {
    accepted.items.iter().filter_map(|item| {
        let (fault, bytes) = unlawful(item, &accepted.image)?;
        let mut image = accepted.image.clone();
        image[item.offset..item.offset + bytes.len()].copy_from_slice(&bytes);
        Some(Spoiled { image, verdict: fault.at(item.offset) })
    })
}

/// Bytes that the item must not have where it stands, and the fault that they are.
fn unlawful(item: &Item, image: &[u8]) -> Option<(Fault, Vec<u8>)> {
    let next = image[item.offset].wrapping_add(1);
    let (fault, byte) = match item.kind {
        ItemKind::Version => (Fault::Version, next),
        ItemKind::ImageLength => return Some((Fault::Size, vec![u8::MAX; 2])),
        ItemKind::BodyLength | ItemKind::ClauseLength => {
            return Some((Fault::PassesEnd, vec![u8::MAX; 2]))
        }
        ItemKind::SignatureCount
        | ItemKind::SymbolCount
        | ItemKind::ParameterCount
        | ItemKind::LabelCount
        | ItemKind::LabelParameterCount
        | ItemKind::SubstituteCount => (Fault::Count, 65),
        ItemKind::TypeKind => (Fault::Unknown, 3),
        ItemKind::ExtNumber => (Fault::Unknown, 1),
        ItemKind::Code | ItemKind::Operation => (Fault::Unknown, 7),
        ItemKind::TypeNumber
        | ItemKind::Label
        | ItemKind::Position
        | ItemKind::Argument
        | ItemKind::Signature
        | ItemKind::Symbol => (Fault::Unbound, 64),
        ItemKind::CaptureCount => (Fault::Premise, 33),
        ItemKind::ClauseCount | ItemKind::ClauseSymbol => (Fault::Clause, next),
        ItemKind::Literal => return None,
    };
    Some((fault, vec![byte]))
}

/// The accepted image cut off at `offset`, with every region around it shortened to match. The
/// item that stood there is missing or, if it has more than one byte, does not fit.
///
/// `offset` must be after the length field and inside the image.
pub fn cut(accepted: &Assembled, offset: usize) -> Spoiled {
    let mut image = accepted.image[..offset].to_vec();
    let around = accepted.regions.iter().filter(|region| contains(region, offset));
    for region in around {
        set_length(&mut image, region.field, offset - region.field - 2);
    }
    let items_before = accepted.items.iter().take_while(|item| item.offset <= offset);
    let item = items_before.last().map_or(START, |item| item.offset);
    Spoiled { image: with_length(image), verdict: Fault::PassesEnd.at(item) }
}

/// The accepted image with one more byte at the end of a region, or after the last body, and every
/// length around it raised to match; `None` where the image has no place for it.
pub fn grown(accepted: &Assembled, region: Option<&Region>, byte: u8) -> Option<Spoiled> {
    if accepted.image.len() >= MOST_BYTES {
        return None;
    }
    let mut image = accepted.image.clone();
    let end = region.map_or(image.len(), |region| region.end);
    if let Some(grown) = region {
        let is_around = |other: &&Region| other.field <= grown.field && grown.end <= other.end;
        for around in accepted.regions.iter().filter(is_around) {
            set_length(&mut image, around.field, around.end - around.field - 1);
        }
    }
    image.insert(end, byte);
    Some(Spoiled { image: with_length(image), verdict: Fault::BytesLeft.at(end) })
}

fn contains(region: &Region, offset: usize) -> bool {
    (region.field + 2..region.end).contains(&offset)
}

fn set_length(image: &mut [u8], field: usize, length: usize) {
    image[field..field + 2].copy_from_slice(&(length as u16).to_be_bytes());
}

/// One change of a known item.
pub(super) fn one_change(assembled: &Assembled, random: &mut Random) -> Vec<u8> {
    match random.below(4) {
        0 => swap_clause_symbols(assembled, random),
        1 => nudge(assembled, random, is_count),
        2 => nudge(assembled, random, is_length),
        _ => nudge(assembled, random, |_| true),
    }
}

fn is_count(kind: ItemKind) -> bool {
    matches!(
        kind,
        ItemKind::SignatureCount
            | ItemKind::SymbolCount
            | ItemKind::ParameterCount
            | ItemKind::LabelCount
            | ItemKind::LabelParameterCount
            | ItemKind::SubstituteCount
            | ItemKind::CaptureCount
            | ItemKind::ClauseCount
    )
}

fn is_length(kind: ItemKind) -> bool {
    matches!(kind, ItemKind::BodyLength | ItemKind::ClauseLength)
}

/// Two clause symbols in each other's place.
fn swap_clause_symbols(assembled: &Assembled, random: &mut Random) -> Vec<u8> {
    let mut image = assembled.image.clone();
    let symbols = offsets(assembled, |kind| kind == ItemKind::ClauseSymbol);
    if let (Some(first), Some(second)) = (random.pick(&symbols), random.pick(&symbols)) {
        image.swap(first, second);
    }
    image
}

/// One such item a little larger or smaller, or a small number.
fn nudge(assembled: &Assembled, random: &mut Random, which: fn(ItemKind) -> bool) -> Vec<u8> {
    let mut image = assembled.image.clone();
    if let Some(offset) = random.pick(&offsets(assembled, which)) {
        // Of a length field the low byte is the one that changes it a little.
        let is_long = assembled.items.iter().any(|i| i.offset == offset && is_length(i.kind));
        let byte = &mut image[offset + usize::from(is_long)];
        *byte = match random.below(4) {
            0 => byte.wrapping_add(1),
            1 => byte.wrapping_sub(1),
            2 => byte.wrapping_add(random.below(16) as u8),
            _ => random.below(34) as u8,
        };
    }
    image
}

fn offsets(assembled: &Assembled, which: impl Fn(ItemKind) -> bool) -> Vec<usize> {
    let items = assembled.items.iter().filter(|item| which(item.kind));
    items.map(|item| item.offset).collect()
}
