//! What several test files need: the images of document 01, and short ways to write others.

#![allow(dead_code)] // each test file is a program of its own and uses only some of this

use second::assemble::assemble;
use second::terms::{Arithmetic, Label, Program, Signature, Statement, Straight, Type};
use second::{check, Answer, Verdict};

/// Image A of document 01.
pub const A: [u8; 23] = [
    0x01, 0x00, 0x14, 0x00, 0x01, 0x00, 0x00, 0x0F, 0x02, 0x00, 0x00, 0x00, 0x00, 0x00, 0x00, 0x00,
    0x00, 0x07, 0x00, 0x03, 0x02, 0x06, 0x00,
];

/// Image B of document 01.
pub const B: [u8; 35] = [
    0x01, 0x00, 0x20, 0x01, 0x02, 0x00, 0x01, 0x02, 0x00, 0x01, 0x02, 0x02, 0x00, 0x02, 0x00, 0x00,
    0x12, 0x03, 0x00, 0x01, 0x05, 0x00, 0x02, 0x00, 0x00, 0x03, 0x02, 0x06, 0x00, 0x01, 0x00, 0x03,
    0x02, 0x06, 0x01,
];

/// Image C of document 01.
pub const C: [u8; 28] = [
    0x01, 0x00, 0x19, 0x01, 0x01, 0x01, 0x02, 0x00, 0x01, 0x02, 0x02, 0x00, 0x02, 0x00, 0x00, 0x0C,
    0x04, 0x00, 0x01, 0x01, 0x00, 0x00, 0x03, 0x02, 0x06, 0x01, 0x06, 0x00,
];

/// The image with these bytes, from `offset` on, instead of its own.
pub fn with_bytes(image: &[u8], offset: usize, bytes: &[u8]) -> Vec<u8> {
    let mut changed = image.to_vec();
    changed[offset..offset + bytes.len()].copy_from_slice(bytes);
    changed
}

/// Number and offset of the check's verdict.
pub fn verdict(image: &[u8]) -> (u8, u32) {
    let Verdict { number, offset } = check(image);
    (number, offset)
}

/// The verdict that accepts the image.
pub fn accepted(image: &[u8]) -> (u8, u32) {
    (0, image.len() as u32)
}

/// An answer.
pub fn answer(number: u8, steps: u32, words: u32, value: u64) -> Answer {
    Answer { number, steps, words, value }
}

/// The answer of a refused run.
pub fn refused(number: u8) -> Answer {
    answer(number, 0, 0, 0)
}

/// An image: version, length, this head, and bodies of the right length.
pub fn image(head: &[u8], bodies: &[&[u8]]) -> Vec<u8> {
    let mut image = vec![1, 0, 0];
    image.extend(head);
    for body in bodies {
        image.extend((body.len() as u16).to_be_bytes());
        image.extend(*body);
    }
    second::damage::with_length(image)
}

/// Offset of the first byte of the first body under this head.
pub fn body_at(head: &[u8]) -> usize {
    3 + head.len() + 2
}

/// The image of a program written as terms.
pub fn image_of(signatures: &[Vec<Vec<Type>>], labels: &[(Vec<Type>, Statement)]) -> Vec<u8> {
    let signatures = signatures.iter().map(|symbols| Signature { symbols: symbols.clone() });
    let labels = labels.iter().cloned().map(|(parameters, body)| Label { parameters, body });
    let program = Program { signatures: signatures.collect(), labels: labels.collect() };
    assemble(&program).expect("a small program has bytes")
}

/// `extern ifz 0` around a statement, so many times.
pub fn nested(times: usize, inside: Statement) -> Statement {
    (0..times).fold(inside, |inside, _| Statement::ifz(0, Statement::exit(0), inside))
}

/// An image that counts its first argument down to 0, adds every count to its second, and exits
/// with the sum. A count of n takes 6 n + 2 steps and no room.
pub fn countdown() -> Vec<u8> {
    // count, sum, new sum, one, count less one
    let again = Statement::substitute(&[4, 2], Statement::jump(0));
    let again = Statement::lit(1, Statement::compute(Arithmetic::Sub, 0, 3, again));
    let again = Statement::compute(Arithmetic::Add, 1, 0, again);
    let body = Statement::ifz(0, Statement::exit(1), again);
    image_of(&[], &[(vec![Type::Ext, Type::Ext], body)])
}

/// A table of this many words, no two alike and none of them likely in a run.
pub fn pattern(words: usize) -> Vec<u64> {
    (0..words as u64).map(|word| 0xA5A5_5A5A_0000_0000 | word).collect()
}

/// What the task gives on a thread of 256 KiB.
pub fn on_small_stack<T: Send + 'static>(task: impl FnOnce() -> T + Send + 'static) -> T {
    let thread = std::thread::Builder::new().stack_size(256 * 1024).spawn(task);
    thread.expect("a thread").join().expect("no panic on a small stack")
}

/// Signatures, and statements: a producer around a producer, so many times, then nothing kept.
/// Signature 0 has m0(prd 0) and m1().
pub fn lets_in_a_row(times: usize) -> (Vec<Vec<Vec<Type>>>, Vec<Straight>) {
    let mut straight = vec![Straight::Let { signature: 0, symbol: 1 }];
    straight.extend(vec![Straight::Let { signature: 0, symbol: 0 }; times]);
    straight.push(Straight::Substitute(vec![]));
    (vec![vec![vec![Type::Prd(0)], vec![]]], straight)
}

/// Signatures, and statements: a consumer around a consumer, so many times, then nothing kept.
/// Signature 0 has no symbol, so that they have no clauses.
pub fn news_in_a_row(times: usize) -> (Vec<Vec<Vec<Type>>>, Vec<Straight>) {
    let new = |captures| Straight::New { signature: 0, captures, clauses: vec![], offset: 0 };
    let mut straight = vec![new(0)];
    straight.extend(vec![new(1); times]);
    straight.push(Straight::Substitute(vec![]));
    (vec![vec![]], straight)
}
