//! The deed rule: on this day, is the deed kept or listed for deletion?
//!
//! The term of keeping a deed is `permanent`, or `until` a date. The runner hands over the day and
//! the deed's date, two day numbers; date 0 says that the deed has none and stays for ever. The
//! rule first makes the term of them, then judges it:
//!
//! ```text
//! term(day, date)  = judge(day, permanent)     where date is 0
//!                    judge(day, until(date))   otherwise
//! judge(day, term) = switch term
//!                      permanent:   keep
//!                      until(date): list where date is below day, otherwise keep
//! ```
//!
//! So the date is the last day on which the deed is kept. The run exits with 0 for keep and with 1
//! for list.

use second::terms::Type::{Ext, Prd};
use second::terms::{Clause, Last, Program, Statement};

use crate::program;

/// The signature of terms.
const TERM: u8 = 0;
/// Its first symbol, without a field.
const PERMANENT: u8 = 0;
/// Its second symbol, whose field is the date.
const UNTIL: u8 = 1;
/// The label that judges a term.
const JUDGE: u8 = 1;
/// The value for a deed that is kept.
const KEEP: u64 = 0;
/// The value for a deed that is listed for deletion.
const LIST: u64 = 1;

/// The rule with its clauses in signature order.
pub(crate) fn right() -> Program {
    deed(vec![when_permanent(), when_until()])
}

/// The same rule as a compiler may spoil it: both clauses are there and each has its own symbol,
/// but they stand in the wrong order.
///
/// A runner that takes clauses by their place would judge a permanent deed by a date that it does
/// not have, and keep every other deed for ever. The check refuses the image at the symbol byte of
/// the first clause.
pub(crate) fn wrong_order() -> Program {
    deed(vec![when_until(), when_permanent()])
}

/// The rule with these clauses in this order.
fn deed(clauses: Vec<Clause>) -> Program {
    program(&[&[&[], &[Ext]]], vec![(&[Ext, Ext], term()), (&[Ext, Prd(TERM)], judge(clauses))])
}

/// `day, date`: makes the term, and jumps with `day, term`.
fn term() -> Statement {
    // permanent takes no field, so the date has to be dropped first; until takes it.
    let permanent = Statement::let_(TERM, PERMANENT, Statement::jump(JUDGE));
    let permanent = Statement::substitute(&[0], permanent);
    let until = Statement::let_(TERM, UNTIL, Statement::jump(JUDGE));
    Statement::ifz(1, permanent, until)
}

/// `day, term`: the term goes, and its symbol's clause gains its fields.
fn judge(clauses: Vec<Clause>) -> Statement {
    // Made by hand: the maker of switch writes clauses in signature order only.
    Statement { straight: vec![], last: Last::Switch { signature: TERM, clauses } }
}

/// `day`: kept.
fn when_permanent() -> Clause {
    Clause { symbol: PERMANENT, statement: exit_with(KEEP, 1) }
}

/// `day, date`: listed where the date is past.
fn when_until() -> Clause {
    let statement = Statement::less(1, 0, exit_with(LIST, 2), exit_with(KEEP, 2));
    Clause { symbol: UNTIL, statement }
}

/// Exits with the value, which comes to stand after so many entries.
fn exit_with(value: u64, entries: u8) -> Statement {
    Statement::lit(value, Statement::exit(entries))
}
