//! Document 01, "Typing by position" in the order of "Refusal numbers", "Inside statements".
//!
//! What follows a substitute, let or new in the same region is read by the loop in
//! [`Body::statement`]; only clauses make the check call itself, so at most 48 times.

use super::cursor::Cursor;
use super::environment::{Environment, TypeBytes};
use super::head::Head;
use crate::answer::{Fault, Verdict};
use crate::layout::{
    ADD, CNS, EXIT, EXT, EXTERN, IFZ, INVOKE, JUMP, LESS, LET, LIT, MOST_DEPTH, MOST_WIDTH, MUL,
    NEW, PRD, SUB, SUBSTITUTE, SWITCH,
};

/// The one type that extern clauses gain.
const INTEGER: TypeBytes = [EXT, 0];

/// Checks the bodies in label order and notes where each begins.
pub(super) fn bodies(cursor: &mut Cursor, head: &mut Head) -> Result<(), Verdict> {
    for label in 0..head.labels() {
        let around = cursor.enter()?;
        head.note_body(label, cursor.at());
        let environment = Environment::of(head.label(cursor.image(), label));
        let mut body = Body { head, cursor };
        body.statement(environment, 0)?;
        cursor.leave(around)?;
    }
    Ok(())
}

/// A body that is being read, by the head above it.
struct Body<'h, 'c, 'i> {
    head: &'h Head,
    cursor: &'c mut Cursor<'i>,
}

impl<'i> Body<'_, '_, 'i> {
    /// Checks the statement that stands here, `depth` clauses deep.
    fn statement(&mut self, mut environment: Environment, depth: usize) -> Result<(), Verdict> {
        loop {
            let code_at = self.cursor.at();
            match self.cursor.byte()? {
                JUMP => return self.jump(code_at, &environment),
                SUBSTITUTE => environment = self.substitute(&environment)?,
                EXTERN => return self.extern_(&environment, depth),
                LET => self.let_(code_at, &mut environment)?,
                NEW => self.new_(code_at, &mut environment, depth)?,
                SWITCH => return self.switch(code_at, environment, depth),
                INVOKE => return self.invoke(code_at, &environment),
                _ => return Err(Fault::Unknown.at(code_at)),
            }
        }
    }

    fn jump(&mut self, code_at: usize, environment: &Environment) -> Result<(), Verdict> {
        let label = self.cursor.name(self.head.labels())?;
        premise(environment.entries() == self.head.label(self.cursor.image(), label), code_at)
    }

    /// The only place where entries are dropped, repeated or reordered.
    fn substitute(&mut self, old: &Environment) -> Result<Environment, Verdict> {
        let count = self.cursor.count(0, MOST_WIDTH)?;
        let mut new = Environment::of(&[]);
        for _ in 0..count {
            let position = self.cursor.name(old.width())?;
            new.gain(&[old.entries()[position]]);
        }
        Ok(new)
    }

    fn extern_(&mut self, environment: &Environment, depth: usize) -> Result<(), Verdict> {
        let operation_at = self.cursor.at();
        match self.cursor.byte()? {
            LIT => {
                self.cursor.literal()?;
                self.extern_clause(environment, &[INTEGER], depth)
            }
            ADD | SUB | MUL => {
                self.integer(environment)?;
                self.integer(environment)?;
                self.extern_clause(environment, &[INTEGER], depth)
            }
            IFZ => {
                self.integer(environment)?;
                self.extern_clause(environment, &[], depth)?;
                self.extern_clause(environment, &[], depth)
            }
            LESS => {
                self.integer(environment)?;
                self.integer(environment)?;
                self.extern_clause(environment, &[], depth)?;
                self.extern_clause(environment, &[], depth)
            }
            EXIT => self.integer(environment),
            _ => Err(Fault::Unknown.at(operation_at)),
        }
    }

    /// A position among an extern's arguments: 3, 7, then 8, all at that position.
    fn integer(&mut self, environment: &Environment) -> Result<(), Verdict> {
        let position_at = self.cursor.at();
        let position = self.cursor.name(environment.width())?;
        premise(environment.is_ext(position), position_at)
    }

    fn let_(&mut self, code_at: usize, environment: &mut Environment) -> Result<(), Verdict> {
        let signature = self.cursor.name(self.head.signatures())?;
        let symbol = self.cursor.name(self.head.symbols(signature))?;
        let parameters = self.head.parameters(self.cursor.image(), signature, symbol);
        premise(environment.entries().ends_with(parameters), code_at)?;
        environment.lose(parameters.len());
        add_one(environment, [PRD, signature as u8], code_at)
    }

    fn new_(
        &mut self,
        code_at: usize,
        environment: &mut Environment,
        depth: usize,
    ) -> Result<(), Verdict> {
        let signature = self.cursor.name(self.head.signatures())?;
        let captures = self.capture_count(environment)?;
        let first_captured = environment.width() - captures;
        let captured = &environment.entries()[first_captured..];
        let symbols = self.clause_count(signature)?;
        for symbol in 0..symbols {
            let clause_at = self.clause_symbol(symbol)?;
            let parameters = self.head.parameters(self.cursor.image(), signature, symbol);
            self.clause(clause_at, Environment::of(parameters), captured, depth)?;
        }
        environment.lose(captures);
        add_one(environment, [CNS, signature as u8], code_at)
    }

    /// A capture count has no limit of its own: above the environment it is 8, at that byte.
    fn capture_count(&mut self, environment: &Environment) -> Result<usize, Verdict> {
        let count_at = self.cursor.at();
        let captures = usize::from(self.cursor.byte()?);
        premise(captures <= environment.width(), count_at)?;
        Ok(captures)
    }

    fn switch(
        &mut self,
        code_at: usize,
        mut environment: Environment,
        depth: usize,
    ) -> Result<(), Verdict> {
        let signature = self.cursor.name(self.head.signatures())?;
        premise(environment.last() == Some([PRD, signature as u8]), code_at)?;
        environment.lose(1);
        let symbols = self.clause_count(signature)?;
        for symbol in 0..symbols {
            let clause_at = self.clause_symbol(symbol)?;
            let parameters = self.head.parameters(self.cursor.image(), signature, symbol);
            self.clause(clause_at, environment, parameters, depth)?;
        }
        Ok(())
    }

    fn invoke(&mut self, code_at: usize, environment: &Environment) -> Result<(), Verdict> {
        let Some([CNS, signature]) = environment.last() else {
            return Err(Fault::Premise.at(code_at));
        };
        let signature = usize::from(signature);
        let symbol = self.cursor.name(self.head.symbols(signature))?;
        let parameters = self.head.parameters(self.cursor.image(), signature, symbol);
        let rest = &environment.entries()[..environment.width() - 1];
        premise(rest == parameters, code_at)
    }

    /// Reads a clause count, which must be the number of the signature's symbols.
    fn clause_count(&mut self, signature: usize) -> Result<usize, Verdict> {
        let symbols = self.head.symbols(signature);
        self.exactly(symbols)?;
        Ok(symbols)
    }

    /// Reads the symbol byte of the clause for `symbol` and gives its offset.
    fn clause_symbol(&mut self, symbol: usize) -> Result<usize, Verdict> {
        let clause_at = self.cursor.at();
        self.exactly(symbol)?;
        Ok(clause_at)
    }

    /// Reads a clause count or clause symbol, which can only have one value.
    fn exactly(&mut self, value: usize) -> Result<(), Verdict> {
        let at = self.cursor.at();
        if usize::from(self.cursor.byte()?) != value {
            return Err(Fault::Clause.at(at));
        }
        Ok(())
    }

    /// A clause without symbol byte: 5 and 10 stand at its length field, even a missing one.
    fn extern_clause(
        &mut self,
        environment: &Environment,
        gained: &[TypeBytes],
        depth: usize,
    ) -> Result<(), Verdict> {
        self.clause(self.cursor.at(), *environment, gained, depth)
    }

    /// The rest of a clause, after its symbol byte if it has one: 5, 10, length, statement, 11.
    ///
    /// `depth` is that of the statement around the clause; `clause_at` is where 5 and 10 stand.
    fn clause(
        &mut self,
        clause_at: usize,
        mut environment: Environment,
        gained: &[TypeBytes],
        depth: usize,
    ) -> Result<(), Verdict> {
        if !environment.has_place_for(gained.len()) {
            return Err(Fault::Width.at(clause_at));
        }
        if depth >= MOST_DEPTH {
            return Err(Fault::Depth.at(clause_at));
        }
        environment.gain(gained);
        let around = self.cursor.enter()?;
        self.statement(environment, depth + 1)?;
        self.cursor.leave(around)
    }
}

/// A typing premise, 8 at `at` where it fails.
fn premise(holds: bool, at: usize) -> Result<(), Verdict> {
    if holds {
        Ok(())
    } else {
        Err(Fault::Premise.at(at))
    }
}

/// Adds the entry that let or new makes, 5 at the code where that is one too many.
fn add_one(environment: &mut Environment, made: TypeBytes, code_at: usize) -> Result<(), Verdict> {
    if !environment.has_place_for(1) {
        return Err(Fault::Width.at(code_at));
    }
    environment.gain(&[made]);
    Ok(())
}
