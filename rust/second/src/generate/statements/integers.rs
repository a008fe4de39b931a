//! extern, by its rule in document 01's "Typing by position".

use super::{fits, Draft, Outcome, Writer, BYTES_TO_END};
use crate::terms::{Arithmetic, Extern, Last, Statement, Type};

/// Bytes of an extern clause, and what is put by to end it.
const BYTES_OF_CLAUSE: usize = 2 + BYTES_TO_END;

impl Writer<'_> {
    pub(super) fn lit(&mut self, draft: &mut Draft) -> Outcome {
        let value = self.random.integer();
        match self.one_more(draft, 10) {
            Some(clause) => ended(Extern::Lit(value, Box::new(clause))),
            None => Outcome::Nothing,
        }
    }

    pub(super) fn compute(&mut self, draft: &mut Draft) -> Outcome {
        const ALL: [Arithmetic; 3] = [Arithmetic::Add, Arithmetic::Sub, Arithmetic::Mul];
        let Some((first, second)) = self.two_integers(draft) else {
            return Outcome::Nothing;
        };
        let operation = ALL[self.random.below(ALL.len())];
        match self.one_more(draft, 4) {
            Some(clause) => ended(Extern::Compute(operation, first, second, Box::new(clause))),
            None => Outcome::Nothing,
        }
    }

    pub(super) fn ifz(&mut self, draft: &mut Draft) -> Outcome {
        let Some(position) = self.find(draft, Type::Ext) else {
            return Outcome::Nothing;
        };
        match self.two_ways(draft, 3) {
            Some(clauses) => ended(Extern::Ifz(position, clauses)),
            None => Outcome::Nothing,
        }
    }

    pub(super) fn less(&mut self, draft: &mut Draft) -> Outcome {
        let Some((first, second)) = self.two_integers(draft) else {
            return Outcome::Nothing;
        };
        match self.two_ways(draft, 4) {
            Some(clauses) => ended(Extern::Less(first, second, clauses)),
            None => Outcome::Nothing,
        }
    }

    pub(super) fn exit(&mut self, draft: &mut Draft) -> Outcome {
        match self.find(draft, Type::Ext) {
            Some(position) if self.pay_for_end(3) => ended(Extern::Exit(position)),
            _ => Outcome::Nothing,
        }
    }

    fn two_integers(&mut self, draft: &Draft) -> Option<(u8, u8)> {
        let first = self.find(draft, Type::Ext)?;
        let second = self.find(draft, Type::Ext)?;
        Some((first, second))
    }

    /// The clause that gains an integer, after an extern of so many bytes.
    fn one_more(&mut self, draft: &Draft, bytes: usize) -> Option<Statement> {
        let lawful = self.may_open(draft) && fits(draft.width() + 1);
        if !lawful || !self.pay_for_end(bytes + BYTES_OF_CLAUSE) {
            return None;
        }
        let mut types = draft.types.clone();
        types.push(Type::Ext);
        Some(self.statement(Draft::new(types, draft.depth + 1)))
    }

    /// Two clauses that gain nothing, after an extern of so many bytes. They have the integer
    /// that was asked about, so they can be ended at any depth.
    fn two_ways(&mut self, draft: &Draft, bytes: usize) -> Option<Box<[Statement; 2]>> {
        if !self.may_open(draft) || !self.pay_for_end(bytes + 2 * BYTES_OF_CLAUSE) {
            return None;
        }
        let clause = || Draft::new(draft.types.clone(), draft.depth + 1);
        let clauses = self.clauses(vec![clause(), clause()], self.bytes_left);
        clauses.try_into().ok().map(Box::new)
    }
}

fn ended(operation: Extern) -> Outcome {
    Outcome::Ended(Last::Extern(operation))
}
