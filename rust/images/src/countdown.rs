//! A loop: counts the argument down to 0 and exits with the sum of all counts.
//!
//! A loop is a label that jumps to itself. A jump hands on the whole environment, which must equal
//! the label's list; so a substitute before it keeps what the next round needs and drops the rest.
//! Nothing is stored. A count of n takes 6 n + 4 steps, so with too little fuel the run ends by it.

use second::terms::Arithmetic::{Add, Sub};
use second::terms::Type::Ext;
use second::terms::{Program, Statement};

use crate::program;

/// The label of the loop.
const ROUND: u8 = 1;

/// `count`, then rounds of `count, sum`.
pub(crate) fn countdown() -> Program {
    let start = Statement::lit(0, Statement::jump(ROUND));
    program(&[], vec![(&[Ext], start), (&[Ext, Ext], round())])
}

/// `count, sum`: exits with the sum where the count is 0, else goes round once more.
fn round() -> Statement {
    Statement::ifz(0, Statement::exit(1), Statement::compute(Add, 1, 0, next_count()))
}

/// `count, sum, next sum`: takes 1 from the count, and jumps with the next count and sum.
fn next_count() -> Statement {
    // count, sum, next sum, 1, next count
    let again = Statement::substitute(&[4, 2], Statement::jump(ROUND));
    Statement::lit(1, Statement::compute(Sub, 0, 3, again))
}
