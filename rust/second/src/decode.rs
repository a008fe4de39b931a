//! Document 01, "Image layout", read back: the program whose bytes an image is.
//!
//! The lengths of regions are passed over, not obeyed. In an accepted image they say nothing that
//! the terms do not say, and for any other image the question "are these the bytes of this
//! program?" is put to [`crate::assemble`], which writes every length anew. So this reading shares
//! no test with the check.

use crate::layout::{
    ADD, CNS, EXIT, EXT, EXTERN, IFZ, INVOKE, JUMP, LESS, LET, LIT, MUL, NEW, PRD, START, SUB,
    SUBSTITUTE, SWITCH,
};
use crate::terms::{
    Arithmetic, Clause, Extern, Label, Last, Program, Signature, Statement, Straight, Type,
};

/// Clauses nested deeper than this are not read, so that no bytes can exhaust the stack. It is
/// above the 48 of document 01, which is left for the typing to judge.
const DEEPEST_READ: usize = 64;

/// The program that the bytes spell out, `None` where they spell none.
///
/// Version, lengths and limits are not looked at; of an accepted image it is the one program whose
/// bytes it is.
pub fn decode(image: &[u8]) -> Option<Program> {
    let mut bytes = Bytes { image, at: START };
    let signatures = bytes.many(Bytes::signature)?;
    let lists = bytes.many(Bytes::types)?;
    let mut labels = Vec::with_capacity(lists.len());
    for parameters in lists {
        bytes.length()?;
        let body = bytes.statement(0)?;
        labels.push(Label { parameters, body });
    }
    Some(Program { signatures, labels })
}

struct Bytes<'i> {
    image: &'i [u8],
    at: usize,
}

impl Bytes<'_> {
    fn byte(&mut self) -> Option<u8> {
        let byte = *self.image.get(self.at)?;
        self.at += 1;
        Some(byte)
    }

    /// Passes over a length field.
    fn length(&mut self) -> Option<()> {
        self.byte()?;
        self.byte()?;
        Some(())
    }

    /// A count and that many things.
    fn many<T>(&mut self, one: impl Fn(&mut Self) -> Option<T>) -> Option<Vec<T>> {
        let count = self.byte()?;
        (0..count).map(|_| one(self)).collect()
    }

    fn signature(&mut self) -> Option<Signature> {
        let symbols = self.many(Bytes::types)?;
        Some(Signature { symbols })
    }

    fn types(&mut self) -> Option<Vec<Type>> {
        self.many(Bytes::one_type)
    }

    fn one_type(&mut self) -> Option<Type> {
        let kind = self.byte()?;
        let number = self.byte()?;
        match (kind, number) {
            (PRD, signature) => Some(Type::Prd(signature)),
            (CNS, signature) => Some(Type::Cns(signature)),
            (EXT, 0) => Some(Type::Ext),
            _ => None,
        }
    }

    fn statement(&mut self, depth: usize) -> Option<Statement> {
        let mut straight = Vec::new();
        loop {
            let offset = self.at as u32;
            let last = match self.byte()? {
                SUBSTITUTE => {
                    straight.push(Straight::Substitute(self.many(Bytes::byte)?));
                    continue;
                }
                LET => {
                    straight.push(Straight::Let { signature: self.byte()?, symbol: self.byte()? });
                    continue;
                }
                NEW => {
                    straight.push(self.new_(offset, depth)?);
                    continue;
                }
                JUMP => Last::Jump(self.byte()?),
                EXTERN => Last::Extern(self.extern_(depth)?),
                SWITCH => Last::Switch { signature: self.byte()?, clauses: self.clauses(depth)? },
                INVOKE => Last::Invoke(self.byte()?),
                _ => return None,
            };
            return Some(Statement { straight, last });
        }
    }

    fn new_(&mut self, offset: u32, depth: usize) -> Option<Straight> {
        let signature = self.byte()?;
        let captures = self.byte()?;
        let clauses = self.clauses(depth)?;
        Some(Straight::New { signature, captures, clauses, offset })
    }

    fn clauses(&mut self, depth: usize) -> Option<Vec<Clause>> {
        self.many(|bytes| {
            let symbol = bytes.byte()?;
            let statement = bytes.clause(depth)?;
            Some(Clause { symbol, statement })
        })
    }

    /// A clause from its length on.
    fn clause(&mut self, depth: usize) -> Option<Statement> {
        if depth == DEEPEST_READ {
            return None;
        }
        self.length()?;
        self.statement(depth + 1)
    }

    fn two_clauses(&mut self, depth: usize) -> Option<Box<[Statement; 2]>> {
        let first = self.clause(depth)?;
        let second = self.clause(depth)?;
        Some(Box::new([first, second]))
    }

    fn extern_(&mut self, depth: usize) -> Option<Extern> {
        match self.byte()? {
            LIT => Some(Extern::Lit(self.literal()?, Box::new(self.clause(depth)?))),
            ADD => self.compute(Arithmetic::Add, depth),
            SUB => self.compute(Arithmetic::Sub, depth),
            MUL => self.compute(Arithmetic::Mul, depth),
            IFZ => Some(Extern::Ifz(self.byte()?, self.two_clauses(depth)?)),
            LESS => Some(Extern::Less(self.byte()?, self.byte()?, self.two_clauses(depth)?)),
            EXIT => Some(Extern::Exit(self.byte()?)),
            _ => None,
        }
    }

    fn compute(&mut self, arithmetic: Arithmetic, depth: usize) -> Option<Extern> {
        let first = self.byte()?;
        let second = self.byte()?;
        Some(Extern::Compute(arithmetic, first, second, Box::new(self.clause(depth)?)))
    }

    fn literal(&mut self) -> Option<u64> {
        (0..8).try_fold(0, |literal, _| Some(literal << 8 | u64::from(self.byte()?)))
    }
}
