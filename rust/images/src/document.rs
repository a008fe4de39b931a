//! Images A, B and C of document 01, "Images on either side of a line".

use second::terms::Type::Ext;
use second::terms::{Program, Statement};

use crate::program;

/// Image A: a literal, and exit with it.
pub(crate) fn a() -> Program {
    program(&[], vec![(&[], Statement::lit(7, Statement::exit(0)))])
}

/// Image B: a producer of the second symbol, whose field is the second argument, and a switch.
pub(crate) fn b() -> Program {
    // The first symbol's clause has the first argument alone, the second's both.
    let clauses = vec![Statement::exit(0), Statement::exit(1)];
    let body = Statement::let_(0, 1, Statement::switch(0, clauses));
    program(&[&[&[], &[Ext]]], vec![(&[Ext, Ext], body)])
}

/// Image C: a consumer that captures the second argument, invoked with the first.
pub(crate) fn c() -> Program {
    // The clause has its symbol's parameter, then the capture.
    let body = Statement::new(0, 1, vec![Statement::exit(1)], Statement::invoke(0));
    program(&[&[&[Ext]]], vec![(&[Ext, Ext], body)])
}
