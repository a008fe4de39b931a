//! Figure 4 by position, with document 01's limits ("Image layout", "Typing by position"): which
//! programs are well typed, over terms and not over bytes.
//!
//! With [`crate::decode`] and [`crate::assemble`] this decides acceptance a second time, in
//! another manner than the check's walk: rules instead of an order of tests. It says nothing on
//! numbers and offsets.

use crate::assemble::assemble;
use crate::decode::decode;
use crate::layout::{
    MOST_BYTES, MOST_DEPTH, MOST_LABELS, MOST_PARAMETERS, MOST_SIGNATURES, MOST_SYMBOLS, MOST_WIDTH,
};
use crate::terms::{Clause, Extern, Last, Program, Statement, Straight, Type};

/// Whether the image is accepted: it is the bytes of a well typed program, and not too many.
pub fn is_image_of_well_typed(image: &[u8]) -> bool {
    image.len() <= MOST_BYTES
        && decode(image).is_some_and(|program| {
            is_well_typed(&program) && assemble(&program).as_deref() == Some(image)
        })
}

/// Rule PROGRAM, with the limits on counts.
pub fn is_well_typed(program: &Program) -> bool {
    signatures_are_lawful(program)
        && labels_are_lawful(program)
        && program.labels.iter().all(|label| {
            let rules = Rules { program, depth: 0 };
            rules.types(&label.body, label.parameters.clone())
        })
}

fn signatures_are_lawful(program: &Program) -> bool {
    let lawful_list = |list: &Vec<Type>| {
        list.len() <= MOST_PARAMETERS && list.iter().all(|&one| is_lawful(program, one))
    };
    program.signatures.len() <= MOST_SIGNATURES
        && program.signatures.iter().all(|signature| {
            signature.symbols.len() <= MOST_SYMBOLS && signature.symbols.iter().all(lawful_list)
        })
}

fn labels_are_lawful(program: &Program) -> bool {
    (1..=MOST_LABELS).contains(&program.labels.len())
        && program.labels[0].parameters.iter().all(|&one| one == Type::Ext)
        && program.labels.iter().all(|label| {
            label.parameters.len() <= MOST_WIDTH
                && label.parameters.iter().all(|&one| is_lawful(program, one))
        })
}

fn is_lawful(program: &Program, one: Type) -> bool {
    match one {
        Type::Prd(signature) | Type::Cns(signature) => {
            usize::from(signature) < program.signatures.len()
        }
        Type::Ext => true,
    }
}

/// The rules for statements under so many clauses.
#[derive(Clone, Copy)]
struct Rules<'p> {
    program: &'p Program,
    depth: usize,
}

impl Rules<'_> {
    /// Whether the statement is well typed in the environment.
    fn types(self, statement: &Statement, environment: Vec<Type>) -> bool {
        statement
            .straight
            .iter()
            .try_fold(environment, |environment, straight| self.after(straight, environment))
            .is_some_and(|environment| self.types_last(&statement.last, environment))
    }

    /// The environment of what follows, where the premises hold.
    fn after(self, straight: &Straight, environment: Vec<Type>) -> Option<Vec<Type>> {
        let after = match straight {
            Straight::Substitute(positions) => {
                let entry = |&position: &u8| environment.get(usize::from(position)).copied();
                positions.iter().map(entry).collect::<Option<Vec<Type>>>()?
            }
            Straight::Let { signature, symbol } => {
                let parameters = self.symbols(*signature)?.get(usize::from(*symbol))?;
                let rest = environment.strip_suffix(parameters.as_slice())?;
                joined(rest, &[Type::Prd(*signature)])
            }
            Straight::New { signature, captures, clauses, offset: _ } => {
                let kept = environment.len().checked_sub(usize::from(*captures))?;
                let (rest, captured) = environment.split_at(kept);
                let start = |parameters: &[Type]| joined(parameters, captured);
                self.types_clauses(clauses, *signature, start).then_some(())?;
                joined(rest, &[Type::Cns(*signature)])
            }
        };
        (after.len() <= MOST_WIDTH).then_some(after)
    }

    fn types_last(self, last: &Last, environment: Vec<Type>) -> bool {
        match last {
            Last::Jump(label) => {
                let label = self.program.labels.get(usize::from(*label));
                label.is_some_and(|label| label.parameters == environment)
            }
            Last::Extern(operation) => self.types_extern(operation, &environment),
            Last::Switch { signature, clauses } => {
                let last = [Type::Prd(*signature)];
                environment.strip_suffix(&last).is_some_and(|rest| {
                    self.types_clauses(clauses, *signature, |parameters| joined(rest, parameters))
                })
            }
            Last::Invoke(symbol) => match environment.split_last() {
                Some((Type::Cns(signature), rest)) => self
                    .symbols(*signature)
                    .and_then(|symbols| symbols.get(usize::from(*symbol)))
                    .is_some_and(|parameters| parameters == rest),
                _ => false,
            },
        }
    }

    fn types_extern(self, operation: &Extern, environment: &[Type]) -> bool {
        let is_integer = |position: u8| environment.get(usize::from(position)) == Some(&Type::Ext);
        let with_one = || joined(environment, &[Type::Ext]);
        let with_none = || environment.to_vec();
        match operation {
            Extern::Lit(_, clause) => self.types_clause(clause, with_one()),
            Extern::Compute(_, first, second, clause) => {
                is_integer(*first) && is_integer(*second) && self.types_clause(clause, with_one())
            }
            Extern::Ifz(position, clauses) => {
                is_integer(*position)
                    && clauses.iter().all(|clause| self.types_clause(clause, with_none()))
            }
            Extern::Less(first, second, clauses) => {
                is_integer(*first)
                    && is_integer(*second)
                    && clauses.iter().all(|clause| self.types_clause(clause, with_none()))
            }
            Extern::Exit(position) => is_integer(*position),
        }
    }

    /// One clause per symbol in signature order, each well typed in what `start` makes of its
    /// symbol's parameters.
    fn types_clauses(
        self,
        clauses: &[Clause],
        signature: u8,
        start: impl Fn(&[Type]) -> Vec<Type>,
    ) -> bool {
        let Some(symbols) = self.symbols(signature) else {
            return false;
        };
        clauses.iter().map(|clause| usize::from(clause.symbol)).eq(0..symbols.len())
            && clauses
                .iter()
                .zip(symbols)
                .all(|(clause, parameters)| self.types_clause(&clause.statement, start(parameters)))
    }

    /// A clause is one deeper than what it stands in, and its environment has its limit too.
    fn types_clause(self, statement: &Statement, environment: Vec<Type>) -> bool {
        let inside = Rules { depth: self.depth + 1, ..self };
        inside.depth <= MOST_DEPTH
            && environment.len() <= MOST_WIDTH
            && inside.types(statement, environment)
    }

    fn symbols(&self, signature: u8) -> Option<&[Vec<Type>]> {
        let signature = self.program.signatures.get(usize::from(signature))?;
        Some(&signature.symbols)
    }
}

fn joined(first: &[Type], then: &[Type]) -> Vec<Type> {
    [first, then].concat()
}
