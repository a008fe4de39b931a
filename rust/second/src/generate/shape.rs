//! The knobs of the generator, within the limits of document 01's "Image layout" and "Typing by
//! position".

use crate::layout::{
    MOST_BYTES, MOST_DEPTH, MOST_LABELS, MOST_PARAMETERS, MOST_SIGNATURES, MOST_SYMBOLS, MOST_WIDTH,
};
use crate::random::Random;

/// A kind of image to ask for.
#[derive(Clone, Copy, PartialEq, Eq, Debug, Hash)]
pub enum Profile {
    /// A few statements under a small head.
    Tiny,
    /// Some signatures and labels, bodies of a few dozen statements.
    Typical,
    /// Clauses in clauses, down to depth 48.
    Deep,
    /// Environments of up to 32 entries, blocks of many fields.
    Wide,
    /// Thousands of bytes, often all 16,384.
    Large,
    /// Loops through jump that count down, fold lists, unwind consumers, or never end.
    Looping,
    /// Loops that store until the room is spent.
    TableFilling,
}

impl Profile {
    /// All of them.
    pub const ALL: [Profile; 7] = [
        Profile::Tiny,
        Profile::Typical,
        Profile::Deep,
        Profile::Wide,
        Profile::Large,
        Profile::Looping,
        Profile::TableFilling,
    ];
}

/// What the generator may try to write next.
#[derive(Clone, Copy, PartialEq, Eq, Debug, Hash)]
pub enum Wish {
    /// A substitute for its own sake.
    Substitute,
    /// A let of some symbol.
    Let,
    /// A new of some signature.
    New,
    /// A switch on some producer.
    Switch,
    /// An invoke of some consumer.
    Invoke,
    /// A jump to some label.
    Jump,
    /// A jump behind a countdown.
    CountedJump,
    /// A literal.
    Lit,
    /// An add, sub or mul.
    Compute,
    /// An ifz.
    Ifz,
    /// A less.
    Less,
    /// An exit.
    Exit,
    /// Whatever makes an entry of a type that some label or symbol still lacks.
    Supply,
}

/// Known loops that a program is given, beside what is made up.
#[derive(Clone, Copy, PartialEq, Eq, Debug, Hash)]
pub enum Given {
    /// None.
    Nothing,
    /// Loops that end, and some that only spend fuel.
    Loops,
    /// Loops that store without end or very long.
    Fills,
}

/// The knobs. Every limit of document 01 is kept whatever they say.
#[derive(Clone, Debug)]
pub struct Shape {
    /// Most bytes of the image; at least 64. Known loops that do not fit are left out.
    pub bytes: usize,
    /// Most bytes spent on symbols and types.
    pub head_bytes: usize,
    /// Most bytes of one body.
    pub body_bytes: usize,
    /// Most signatures.
    pub signatures: usize,
    /// Most symbols of a signature.
    pub symbols: usize,
    /// Most parameters of a symbol.
    pub parameters: usize,
    /// Most labels.
    pub labels: usize,
    /// Most parameters of a label other than 0.
    pub label_parameters: usize,
    /// Most parameters of label 0.
    pub arguments: usize,
    /// The width that substitutes for their own sake aim at.
    pub width: usize,
    /// Depth beyond which no clause is opened for its own sake.
    pub depth: usize,
    /// Whether one clause of several gets nearly all bytes, so that clauses nest.
    pub nest: bool,
    /// Whether substitutes are put in until the image has all its bytes.
    pub fill: bool,
    /// Known loops.
    pub given: Given,
    /// What to write, by weight.
    pub wishes: Vec<(Wish, usize)>,
    /// How to end where bytes are short, by weight.
    pub endings: Vec<(Wish, usize)>,
}

impl Shape {
    /// A setting of the knobs for this profile.
    pub fn of(profile: Profile, random: &mut Random) -> Self {
        match profile {
            Profile::Tiny => tiny(),
            Profile::Typical => typical(),
            Profile::Deep => deep(random),
            Profile::Wide => wide(random),
            Profile::Large => large(random),
            Profile::Looping => Shape { given: Given::Loops, ..looping() },
            Profile::TableFilling => Shape { given: Given::Fills, ..looping() },
        }
    }
}

fn typical() -> Shape {
    Shape {
        bytes: 1_200,
        head_bytes: 300,
        body_bytes: 260,
        signatures: 5,
        symbols: 4,
        parameters: 5,
        labels: 5,
        label_parameters: 5,
        arguments: 3,
        width: 8,
        depth: 16,
        nest: false,
        fill: false,
        given: Given::Nothing,
        wishes: vec![
            (Wish::Substitute, 3),
            (Wish::Let, 6),
            (Wish::New, 4),
            (Wish::Switch, 6),
            (Wish::Invoke, 3),
            (Wish::Jump, 2),
            (Wish::CountedJump, 1),
            (Wish::Lit, 5),
            (Wish::Compute, 5),
            (Wish::Ifz, 2),
            (Wish::Less, 2),
            (Wish::Exit, 1),
            (Wish::Supply, 8),
        ],
        endings: vec![(Wish::Invoke, 6), (Wish::Jump, 3), (Wish::Switch, 3), (Wish::Exit, 4)],
    }
}

fn tiny() -> Shape {
    Shape {
        bytes: 160,
        head_bytes: 30,
        body_bytes: 60,
        signatures: 2,
        symbols: 2,
        parameters: 2,
        labels: 2,
        label_parameters: 2,
        arguments: 2,
        width: 3,
        depth: 3,
        ..typical()
    }
}

fn deep(random: &mut Random) -> Shape {
    Shape {
        bytes: random.between(900, 4_000),
        body_bytes: 3_000,
        labels: 3,
        depth: MOST_DEPTH,
        nest: true,
        wishes: vec![
            (Wish::Substitute, 1),
            (Wish::Let, 2),
            (Wish::New, 4),
            (Wish::Switch, 5),
            (Wish::Lit, 2),
            (Wish::Compute, 4),
            (Wish::Ifz, 5),
            (Wish::Less, 5),
            (Wish::Supply, 3),
        ],
        ..typical()
    }
}

fn wide(random: &mut Random) -> Shape {
    Shape {
        bytes: random.between(1_000, 5_000),
        head_bytes: 900,
        body_bytes: 1_500,
        parameters: MOST_PARAMETERS,
        label_parameters: MOST_WIDTH,
        arguments: MOST_WIDTH,
        width: MOST_WIDTH,
        wishes: vec![
            (Wish::Substitute, 6),
            (Wish::Let, 8),
            (Wish::New, 6),
            (Wish::Switch, 6),
            (Wish::Invoke, 1),
            (Wish::Jump, 1),
            (Wish::Lit, 8),
            (Wish::Compute, 6),
            (Wish::Ifz, 2),
            (Wish::Less, 2),
            (Wish::Supply, 6),
        ],
        ..typical()
    }
}

/// Thousands of bytes: under a large head, or in many labels, or in a few long bodies.
fn large(random: &mut Random) -> Shape {
    let bytes = match random.below(4) {
        0 => random.between(5_000, MOST_BYTES),
        1 => MOST_BYTES - random.below(3),
        _ => MOST_BYTES,
    };
    let large_head = random.one_in(3);
    Shape {
        bytes,
        head_bytes: if large_head { random.between(2_000, 12_000) } else { 600 },
        body_bytes: bytes,
        signatures: if large_head { MOST_SIGNATURES } else { 8 },
        symbols: if large_head { MOST_SYMBOLS } else { 4 },
        parameters: if large_head { MOST_PARAMETERS } else { 4 },
        labels: if random.one_in(2) { MOST_LABELS } else { 4 },
        label_parameters: 8,
        depth: random.between(2, MOST_DEPTH),
        nest: random.one_in(2),
        fill: !random.one_in(4),
        ..typical()
    }
}

fn looping() -> Shape {
    Shape {
        bytes: 1_500,
        signatures: 6,
        labels: 8,
        endings: vec![
            (Wish::Invoke, 3),
            (Wish::Jump, 8),
            (Wish::CountedJump, 4),
            (Wish::Switch, 2),
            (Wish::Exit, 1),
        ],
        ..typical()
    }
}
