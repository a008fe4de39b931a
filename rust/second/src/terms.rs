//! Figure 3's terms and types, with variables as positions, as document 01's "Image layout" and
//! "Typing by position" have them.
//!
//! Figure 3 writes what follows a substitute, let or new inside it. Here such statements stand in
//! a list before the one that ends the region. It is the same term; but an image can hold 8,000 of
//! them in a row, and a list of 8,000 needs no deep recursion to read, write or drop.

/// A type.
#[derive(Clone, Copy, PartialEq, Eq, Debug, Hash)]
pub enum Type {
    /// A producer of the signature.
    Prd(u8),
    /// A consumer of the signature.
    Cns(u8),
    /// A 64-bit integer.
    Ext,
}

/// A signature: for each symbol its parameters.
#[derive(Clone, PartialEq, Eq, Debug, Default)]
pub struct Signature {
    /// Parameters of the symbols, in symbol order.
    pub symbols: Vec<Vec<Type>>,
}

/// A label: the types it assumes, and its body.
#[derive(Clone, PartialEq, Eq, Debug)]
pub struct Label {
    /// The environment that the body starts with.
    pub parameters: Vec<Type>,
    /// The statement.
    pub body: Statement,
}

/// A program; label 0 is the entry.
#[derive(Clone, PartialEq, Eq, Debug)]
pub struct Program {
    /// Figure 3's map from signature names to symbols.
    pub signatures: Vec<Signature>,
    /// The labels with their bodies.
    pub labels: Vec<Label>,
}

/// A statement: what is done in a straight line, then what ends it.
#[derive(Clone, PartialEq, Eq, Debug)]
pub struct Statement {
    /// Statements that are followed by another.
    pub straight: Vec<Straight>,
    /// The statement that is not.
    pub last: Last,
}

/// A statement that is followed by another in the same region.
#[derive(Clone, PartialEq, Eq, Debug)]
pub enum Straight {
    /// The new environment is the named entries in the order named.
    Substitute(Vec<u8>),
    /// Makes a producer of the last entries.
    Let {
        /// The producer's signature.
        signature: u8,
        /// The producer's symbol.
        symbol: u8,
    },
    /// Makes a consumer of the last entries and of clauses.
    New {
        /// The consumer's signature.
        signature: u8,
        /// How many of the last entries are captured.
        captures: u8,
        /// The clauses.
        clauses: Vec<Clause>,
        /// Offset of the code in the image, the second word of the consumer. `decode` writes it;
        /// `assemble` does not read it; it is 0 in terms that were never bytes.
        offset: u32,
    },
}

/// A statement that ends its region.
#[derive(Clone, PartialEq, Eq, Debug)]
pub enum Last {
    /// Goes on with the label's body.
    Jump(u8),
    /// An operation on integers.
    Extern(Extern),
    /// Goes on with the clause for the last entry's symbol.
    Switch {
        /// The last entry's signature.
        signature: u8,
        /// The clauses.
        clauses: Vec<Clause>,
    },
    /// Goes on with the last entry's clause for the symbol.
    Invoke(u8),
}

/// A clause of `new` or `switch`.
#[derive(Clone, PartialEq, Eq, Debug)]
pub struct Clause {
    /// The symbol that it answers.
    pub symbol: u8,
    /// The statement.
    pub statement: Statement,
}

/// An operation with its arguments and its clauses.
#[derive(Clone, PartialEq, Eq, Debug)]
pub enum Extern {
    /// The clause gains the literal.
    Lit(u64, Box<Statement>),
    /// The clause gains the result.
    Compute(Arithmetic, u8, u8, Box<Statement>),
    /// The first clause for zero, the second for not zero.
    Ifz(u8, Box<[Statement; 2]>),
    /// The first clause for first below second, the second for not.
    Less(u8, u8, Box<[Statement; 2]>),
    /// Ends the run with this value.
    Exit(u8),
}

/// The operations with a result; it is taken modulo 2^64.
#[derive(Clone, Copy, PartialEq, Eq, Debug, Hash)]
pub enum Arithmetic {
    /// The sum.
    Add,
    /// The first less the second.
    Sub,
    /// The product.
    Mul,
}

impl Program {
    /// The same program with every `new` as if it had never been bytes.
    ///
    /// `decode` notes offsets and writers of terms do not, so the two are compared after this.
    pub fn without_offsets(mut self) -> Self {
        for label in &mut self.labels {
            label.body.forget_offsets();
        }
        self
    }
}

impl Statement {
    /// The statements right below this one: those of its clauses, in the order of the bytes.
    pub fn clause_statements(&self) -> Vec<&Statement> {
        let of_straight = self.straight.iter().flat_map(|straight| match straight {
            Straight::New { clauses, .. } => clauses.as_slice(),
            _ => &[],
        });
        let mut found: Vec<&Statement> = of_straight.map(|clause| &clause.statement).collect();
        match &self.last {
            Last::Switch { clauses, .. } => {
                found.extend(clauses.iter().map(|clause| &clause.statement));
            }
            Last::Extern(Extern::Lit(_, clause) | Extern::Compute(_, _, _, clause)) => {
                found.push(clause);
            }
            Last::Extern(Extern::Ifz(_, clauses) | Extern::Less(_, _, clauses)) => {
                found.extend(clauses.iter());
            }
            Last::Extern(Extern::Exit(_)) | Last::Jump(_) | Last::Invoke(_) => {}
        }
        found
    }

    /// As [`Statement::clause_statements`], to be changed.
    pub fn clause_statements_mut(&mut self) -> Vec<&mut Statement> {
        let of_straight = self.straight.iter_mut().flat_map(|straight| match straight {
            Straight::New { clauses, .. } => clauses.as_mut_slice(),
            _ => &mut [],
        });
        let mut found: Vec<&mut Statement> =
            of_straight.map(|clause| &mut clause.statement).collect();
        match &mut self.last {
            Last::Switch { clauses, .. } => {
                found.extend(clauses.iter_mut().map(|clause| &mut clause.statement));
            }
            Last::Extern(Extern::Lit(_, clause) | Extern::Compute(_, _, _, clause)) => {
                found.push(clause);
            }
            Last::Extern(Extern::Ifz(_, clauses) | Extern::Less(_, _, clauses)) => {
                found.extend(clauses.iter_mut());
            }
            Last::Extern(Extern::Exit(_)) | Last::Jump(_) | Last::Invoke(_) => {}
        }
        found
    }

    fn forget_offsets(&mut self) {
        for straight in &mut self.straight {
            if let Straight::New { offset, .. } = straight {
                *offset = 0;
            }
        }
        for clause in self.clause_statements_mut() {
            clause.forget_offsets();
        }
    }

    fn ending(last: Last) -> Self {
        Self { straight: Vec::new(), last }
    }

    fn after(mut self, straight: Straight) -> Self {
        self.straight.insert(0, straight);
        self
    }
}

/// Makers: a program written with them reads like the paper's examples.
impl Statement {
    /// `jump label`
    pub fn jump(label: u8) -> Self {
        Self::ending(Last::Jump(label))
    }

    /// `substitute positions; rest`
    pub fn substitute(positions: &[u8], rest: Self) -> Self {
        rest.after(Straight::Substitute(positions.to_vec()))
    }

    /// `let signature symbol; rest`
    pub fn let_(signature: u8, symbol: u8, rest: Self) -> Self {
        rest.after(Straight::Let { signature, symbol })
    }

    /// `new signature captures { clauses }; rest`, the clauses in symbol order.
    pub fn new(signature: u8, captures: u8, clauses: Vec<Self>, rest: Self) -> Self {
        let clauses = in_symbol_order(clauses);
        rest.after(Straight::New { signature, captures, clauses, offset: 0 })
    }

    /// `switch signature { clauses }`, the clauses in symbol order.
    pub fn switch(signature: u8, clauses: Vec<Self>) -> Self {
        Self::ending(Last::Switch { signature, clauses: in_symbol_order(clauses) })
    }

    /// `invoke symbol`
    pub fn invoke(symbol: u8) -> Self {
        Self::ending(Last::Invoke(symbol))
    }

    /// `extern lit value { clause }`
    pub fn lit(value: u64, clause: Self) -> Self {
        Self::ending(Last::Extern(Extern::Lit(value, Box::new(clause))))
    }

    /// `extern operation(first, second) { clause }`
    pub fn compute(operation: Arithmetic, first: u8, second: u8, clause: Self) -> Self {
        let operation = Extern::Compute(operation, first, second, Box::new(clause));
        Self::ending(Last::Extern(operation))
    }

    /// `extern ifz(position) { zero } { not_zero }`
    pub fn ifz(position: u8, zero: Self, not_zero: Self) -> Self {
        Self::ending(Last::Extern(Extern::Ifz(position, Box::new([zero, not_zero]))))
    }

    /// `extern less(first, second) { below } { not_below }`
    pub fn less(first: u8, second: u8, below: Self, not_below: Self) -> Self {
        Self::ending(Last::Extern(Extern::Less(first, second, Box::new([below, not_below]))))
    }

    /// `extern exit(position)`
    pub fn exit(position: u8) -> Self {
        Self::ending(Last::Extern(Extern::Exit(position)))
    }
}

/// One clause per symbol in signature order.
pub(crate) fn in_symbol_order(statements: Vec<Statement>) -> Vec<Clause> {
    let clause = |(symbol, statement)| Clause { symbol, statement };
    (0..).zip(statements).map(clause).collect()
}
