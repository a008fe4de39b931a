//! The images that are checked and run, written as terms.
//!
//! Most are loops: label 0 takes some integers, of which the first counts the rounds down to 0.

use second::assemble::assemble;
use second::generate::{self, Profile};
use second::terms::{Arithmetic, Label, Program, Signature, Statement, Type};

/// Most entries of an environment.
const MOST_WIDTH: u8 = 32;
/// Symbols of the signature that the small loops use.
const SYMBOLS: u8 = 4;

/// Statements of no effect in a row, in one body of some 16,000 bytes.
pub fn straight() -> Vec<u8> {
    let forget = |rest| Statement::substitute(&[0, 1], rest);
    let round = |next| {
        (0..1_300).fold(next, |rest, _| {
            Statement::substitute(&[0, 1, 1], Statement::let_(0, 0, forget(rest)))
        })
    };
    image(vec![vec![vec![]]], vec![looped(2, 0, round)])
}

/// 64 signatures of 32 symbols each; a round makes a producer of the last symbol of some of them,
/// and finds its clause among 32.
pub fn many_signatures() -> Vec<u8> {
    const LAST: u8 = 31;
    let symbols = |signature: u8| {
        let other = vec![Type::Prd(signature), Type::Cns(63 - signature), Type::Ext];
        let mut symbols = vec![other; usize::from(LAST)];
        symbols.push(vec![]);
        symbols
    };
    let signatures = (0..64).map(symbols).collect();
    let round = |next| {
        [63, 0, 31, 47].into_iter().fold(next, |rest, signature| {
            let_and_switch(signature, LAST, usize::from(LAST) + 1, rest)
        })
    };
    image(signatures, vec![looped(2, 0, round)])
}

/// So many labels, each a loop through clauses in clauses down to depth 48.
pub fn deep(labels: u8) -> Vec<u8> {
    let round =
        |next| (0..45).fold(next, |inside, _| Statement::ifz(0, Statement::exit(0), inside));
    image(vec![], (0..labels).map(|label| looped(1, label, round)).collect())
}

/// Substitutes of 32 entries in a row, in one body of some 16,000 bytes.
pub fn wide() -> Vec<u8> {
    // The count stays where it is, and the others go round.
    let turned: Vec<u8> = [0].into_iter().chain(2..MOST_WIDTH).chain([1]).collect();
    let kept: Vec<u8> = (0..MOST_WIDTH - 2).collect();
    // One and the count less one need two places, so two entries are left out for them.
    let back: Vec<u8> =
        [MOST_WIDTH - 1].into_iter().chain(1..MOST_WIDTH - 2).chain([1, 2]).collect();
    let next = Statement::substitute(&back, Statement::jump(0));
    let next = Statement::compute(Arithmetic::Sub, 0, MOST_WIDTH - 2, next);
    let next = Statement::substitute(&kept, Statement::lit(1, next));
    let round = (0..470).fold(next, |rest, _| Statement::substitute(&turned, rest));
    let body = Statement::ifz(0, Statement::exit(1), round);
    image(vec![], vec![(usize::from(MOST_WIDTH), body)])
}

/// Each operation in turn.
pub fn arithmetic() -> Vec<u8> {
    // count, two operands, their sum, product and difference
    let round = |next: Statement| {
        let next = Statement::substitute(&[0, 5, 3], next);
        let next = Statement::less(1, 5, next.clone(), next);
        let next = Statement::compute(Arithmetic::Sub, 4, 2, next);
        let next = Statement::compute(Arithmetic::Mul, 3, 1, next);
        Statement::compute(Arithmetic::Add, 1, 2, next)
    };
    image(vec![], vec![looped(3, 0, round)])
}

/// Producers without fields, each of which is switched on at once.
pub fn let_and_switch_without_fields() -> Vec<u8> {
    let round = |next| {
        (0..16).fold(next, |rest, place| {
            let_and_switch(0, place % SYMBOLS, usize::from(SYMBOLS), rest)
        })
    };
    let symbols = vec![vec![]; usize::from(SYMBOLS)];
    image(vec![symbols], vec![looped(2, 0, round)])
}

/// Consumers without captures, each of which is invoked at once.
pub fn new_and_invoke_without_captures() -> Vec<u8> {
    let round = |next| {
        (0..16).fold(next, |rest, place| {
            let symbol = place % SYMBOLS;
            let clauses = clauses(symbol, usize::from(SYMBOLS), rest);
            Statement::new(0, 0, clauses, Statement::invoke(symbol))
        })
    };
    let symbols = vec![vec![Type::Ext; 2]; usize::from(SYMBOLS)];
    image(vec![symbols], vec![looped(2, 0, round)])
}

/// Producers of four fields, without end.
pub fn let_and_switch_with_fields() -> Vec<u8> {
    let fields = Statement::substitute(&[4, 5, 6, 7], Statement::jump(0));
    let switch = Statement::switch(0, vec![Statement::jump(0), fields]);
    let body = Statement::let_(0, 1, switch);
    let body = Statement::substitute(&[0, 1, 2, 3, 0, 1, 2, 3], body);
    image(vec![vec![vec![], vec![Type::Ext; 4]]], vec![(4, body)])
}

/// Consumers of four captures, without end.
pub fn new_and_invoke_with_captures() -> Vec<u8> {
    let clause = Statement::substitute(&[1, 2, 3, 4], Statement::jump(0));
    let body = Statement::new(0, 4, vec![clause], Statement::invoke(0));
    let body = Statement::substitute(&[0, 0, 1, 2, 3], body);
    image(vec![vec![vec![Type::Ext]]], vec![(4, body)])
}

/// Images of every form by chance, as the tests compare on them.
pub fn generated(profile: Profile, count: u64) -> Vec<Vec<u8>> {
    (0..count).map(|seed| generate::image(seed, profile)).collect()
}

/// The image of these signatures and of labels that take so many integers.
fn image(signatures: Vec<Vec<Vec<Type>>>, labels: Vec<(usize, Statement)>) -> Vec<u8> {
    let signatures = signatures.into_iter().map(|symbols| Signature { symbols }).collect();
    let label = |(width, body)| Label { parameters: vec![Type::Ext; width], body };
    let labels = labels.into_iter().map(label).collect();
    assemble(&Program { signatures, labels }).expect("the bodies fit")
}

/// A label with so many integers that does a round and counts the first integer down, and exits
/// with the last where it is 0. The round must leave the integers' number as it is.
fn looped(width: u8, label: u8, round: impl FnOnce(Statement) -> Statement) -> (usize, Statement) {
    let (one, less) = (width, width + 1);
    let back: Vec<u8> = [less].into_iter().chain(1..width).collect();
    let next = Statement::substitute(&back, Statement::jump(label));
    let next = Statement::lit(1, Statement::compute(Arithmetic::Sub, 0, one, next));
    let body = Statement::ifz(0, Statement::exit(width - 1), round(next));
    (usize::from(width), body)
}

/// A producer without fields, and a switch on it that goes on with `rest`.
fn let_and_switch(signature: u8, symbol: u8, symbols: usize, rest: Statement) -> Statement {
    Statement::let_(signature, symbol, Statement::switch(signature, clauses(symbol, symbols, rest)))
}

/// A clause for each symbol: `rest` for one of them, exit for the others.
fn clauses(symbol: u8, symbols: usize, rest: Statement) -> Vec<Statement> {
    let mut clauses = vec![Statement::exit(0); symbols];
    clauses[usize::from(symbol)] = rest;
    clauses
}
