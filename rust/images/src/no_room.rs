//! A block that finds no room: a list that grows for ever.
//!
//! Every `let` of a cell stores four words, two for each of its two fields, directly after those
//! stored before. Dropped blocks are not used again, so at some round a cell finds fewer than four
//! words left, and the run ends by room: that `let` is neither counted nor performed.

use second::terms::Type::{Ext, Prd};
use second::terms::{Program, Statement};

use crate::program;

/// The signature of lists.
const LIST: u8 = 0;
/// Its first symbol: the empty list.
const EMPTY: u8 = 0;
/// Its second symbol: a number before a list.
const CELL: u8 = 1;
/// The label of the loop.
const GROW: u8 = 1;

/// No arguments, then rounds of `list`.
pub(crate) fn no_room() -> Program {
    let start = Statement::let_(LIST, EMPTY, Statement::jump(GROW));
    program(&[&[&[], &[Ext, Prd(LIST)]]], vec![(&[], start), (&[Prd(LIST)], grow())])
}

/// `list`: puts a number before it, and goes round again.
fn grow() -> Statement {
    let cell = Statement::let_(LIST, CELL, Statement::jump(GROW));
    // list, number: a cell takes them the other way round.
    Statement::lit(7, Statement::substitute(&[1, 0], cell))
}
