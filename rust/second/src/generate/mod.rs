//! Accepted images from a seed: programs that keep document 01's "Image layout" limits and its
//! "Typing by position" by the way they are made.
//!
//! No image is made and then thrown away: every statement is written for the environment it
//! stands in, and always with enough bytes in reserve to end it. [`Shape`] has the knobs and
//! [`Profile`] names useful settings of them.

mod given;
mod heads;
mod pad;
mod shape;
mod statements;

pub use shape::{Given, Profile, Shape, Wish};

use crate::assemble::assemble;
use crate::random::Random;
use crate::terms::{Label, Program, Statement, Type};
use heads::Head;
use statements::Writer;

/// The image of this seed and profile. It is accepted.
pub fn image(seed: u64, profile: Profile) -> Vec<u8> {
    let program = program(seed, profile);
    assemble(&program).expect("the shape keeps the image within its bytes")
}

/// The program of this seed and profile.
pub fn program(seed: u64, profile: Profile) -> Program {
    let mut random = Random::new(seed);
    let shape = Shape::of(profile, &mut random);
    program_of(&shape, &mut random)
}

/// A program of this shape.
pub fn program_of(shape: &Shape, random: &mut Random) -> Program {
    let Head { signatures, lists, given, bytes_left } = Head::new(shape, random);
    let mut writer = Writer::new(shape, random, &signatures, &lists, bytes_left);
    let bodies: Vec<Statement> = (0..lists.len())
        .map(|label| match given.get(&label) {
            Some(body) => body.clone(),
            None => writer.body(label),
        })
        .collect();
    let labels = lists.iter().zip(bodies);
    let labels = labels.map(|(list, body)| Label { parameters: list.clone(), body }).collect();
    let mut program = Program { signatures, labels };
    if shape.fill {
        pad::fill(&mut program, shape.bytes);
    }
    program
}

/// Arguments for the program's label 0: at the edges of 64 bits, small, or any.
pub fn arguments(program: &Program, random: &mut Random) -> Vec<u64> {
    let entry: &[Type] = &program.labels[0].parameters;
    entry.iter().map(|_| random.integer()).collect()
}
