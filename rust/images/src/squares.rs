//! Calls: exits with the sum of the squares of two arguments.
//!
//! A function is a label whose last parameter is a consumer: what is to be done with the result.
//! A caller makes that consumer by `new`, with what it still needs as captures, and jumps. The
//! function invokes it with the result. Each clause starts with the result, then the captures.
//! Every call captures one integer, which is two words of the table.

use second::terms::Arithmetic::{Add, Mul};
use second::terms::Type::{Cns, Ext};
use second::terms::{Program, Statement};

use crate::program;

/// The signature of what takes a result.
const RETURN: u8 = 0;
/// Its only symbol, whose parameter is the result.
const RESULT: u8 = 0;
/// The label of the function.
const SQUARE: u8 = 1;

/// `first, second`, and the function.
pub(crate) fn squares() -> Program {
    let labels: Vec<(&[_], _)> = vec![(&[Ext, Ext], first_call()), (&[Ext, Cns(RETURN)], square())];
    program(&[&[&[Ext]]], labels)
}

/// `first, second`: squares the first, and captures the second for the time after.
fn first_call() -> Statement {
    Statement::new(RETURN, 1, vec![second_call()], Statement::jump(SQUARE))
}

/// `first's square, second`: squares the second, and captures the first's square.
fn second_call() -> Statement {
    let call = Statement::new(RETURN, 1, vec![sum()], Statement::jump(SQUARE));
    // new captures the last entries, so the square goes there.
    Statement::substitute(&[1, 0], call)
}

/// `second's square, first's square`: exits with their sum.
fn sum() -> Statement {
    Statement::compute(Add, 0, 1, Statement::exit(2))
}

/// `number, consumer`: invokes the consumer with the number's square.
fn square() -> Statement {
    // number, consumer, square; invoke asks for its arguments, then the consumer, and nothing else.
    let result = Statement::substitute(&[2, 1], Statement::invoke(RESULT));
    Statement::compute(Mul, 0, 0, result)
}
