//! Document 01, "Image layout": the image as the bytes of a program's terms.
//!
//! Nothing is judged here: a program that breaks every rule has bytes too, so long as each count
//! fits its byte and each length its two bytes.

use crate::layout::{
    ADD, CNS, EXIT, EXT, EXTERN, IFZ, INVOKE, JUMP, LESS, LET, LIT, MUL, NEW, PRD, SUB, SUBSTITUTE,
    SWITCH, VERSION,
};
use crate::terms::{Arithmetic, Clause, Extern, Last, Program, Statement, Straight, Type};

/// What an item of an image is.
#[derive(Clone, Copy, PartialEq, Eq, Debug, Hash, PartialOrd, Ord)]
pub enum ItemKind {
    /// The version byte.
    Version,
    /// The two bytes that count what follows them.
    ImageLength,
    /// How many signatures.
    SignatureCount,
    /// How many symbols.
    SymbolCount,
    /// How many parameters of a symbol.
    ParameterCount,
    /// The kind byte of a type.
    TypeKind,
    /// The number byte of `prd` or `cns`.
    TypeNumber,
    /// The number byte of `ext`.
    ExtNumber,
    /// How many labels.
    LabelCount,
    /// How many parameters of a label.
    LabelParameterCount,
    /// The two-byte length of a body.
    BodyLength,
    /// A statement's code.
    Code,
    /// The label of a jump.
    Label,
    /// How many positions of a substitute.
    SubstituteCount,
    /// A position of a substitute.
    Position,
    /// The operation of an extern.
    Operation,
    /// A position among an extern's arguments.
    Argument,
    /// The eight bytes of a literal.
    Literal,
    /// The signature of a let, new or switch.
    Signature,
    /// The symbol of a let or invoke.
    Symbol,
    /// How many captures.
    CaptureCount,
    /// How many clauses.
    ClauseCount,
    /// The symbol byte of a clause.
    ClauseSymbol,
    /// The two-byte length of a clause.
    ClauseLength,
}

/// An item of an image.
#[derive(Clone, Copy, PartialEq, Eq, Debug)]
pub struct Item {
    /// What it is.
    pub kind: ItemKind,
    /// Its first byte.
    pub offset: usize,
}

/// A region that a length field makes.
#[derive(Clone, Copy, PartialEq, Eq, Debug)]
pub struct Region {
    /// Offset of the length field.
    pub field: usize,
    /// First byte after the region.
    pub end: usize,
}

/// An image with its items in order and its regions.
#[derive(Clone, PartialEq, Eq, Debug)]
pub struct Assembled {
    /// The bytes.
    pub image: Vec<u8>,
    /// Every item, front to back.
    pub items: Vec<Item>,
    /// The regions of bodies and clauses; a region comes after those inside it.
    pub regions: Vec<Region>,
}

/// The bytes of a program; `None` where a count or length does not fit its bytes.
pub fn assemble(program: &Program) -> Option<Vec<u8>> {
    assemble_with_items(program).map(|assembled| assembled.image)
}

/// The bytes of a program, with what each of them is.
pub fn assemble_with_items(program: &Program) -> Option<Assembled> {
    let mut writer = Writer::default();
    writer.byte(ItemKind::Version, VERSION);
    let length = writer.open(ItemKind::ImageLength);
    writer.signatures(program)?;
    writer.labels(program)?;
    for label in &program.labels {
        writer.region(ItemKind::BodyLength, &label.body)?;
    }
    writer.close(length)?;
    Some(Assembled { image: writer.image, items: writer.items, regions: writer.regions })
}

#[derive(Default)]
struct Writer {
    image: Vec<u8>,
    items: Vec<Item>,
    regions: Vec<Region>,
}

impl Writer {
    fn item(&mut self, kind: ItemKind, bytes: &[u8]) {
        self.items.push(Item { kind, offset: self.image.len() });
        self.image.extend_from_slice(bytes);
    }

    fn byte(&mut self, kind: ItemKind, byte: u8) {
        self.item(kind, &[byte]);
    }

    fn count(&mut self, kind: ItemKind, count: usize) -> Option<()> {
        self.byte(kind, u8::try_from(count).ok()?);
        Some(())
    }

    /// Writes a length field that [`Writer::close`] fills in.
    fn open(&mut self, kind: ItemKind) -> usize {
        let field = self.image.len();
        self.item(kind, &[0, 0]);
        field
    }

    fn close(&mut self, field: usize) -> Option<()> {
        let length = u16::try_from(self.image.len() - field - 2).ok()?;
        self.image[field..field + 2].copy_from_slice(&length.to_be_bytes());
        Some(())
    }

    fn signatures(&mut self, program: &Program) -> Option<()> {
        self.count(ItemKind::SignatureCount, program.signatures.len())?;
        for signature in &program.signatures {
            self.count(ItemKind::SymbolCount, signature.symbols.len())?;
            for parameters in &signature.symbols {
                self.types(ItemKind::ParameterCount, parameters)?;
            }
        }
        Some(())
    }

    fn labels(&mut self, program: &Program) -> Option<()> {
        self.count(ItemKind::LabelCount, program.labels.len())?;
        for label in &program.labels {
            self.types(ItemKind::LabelParameterCount, &label.parameters)?;
        }
        Some(())
    }

    fn types(&mut self, count: ItemKind, types: &[Type]) -> Option<()> {
        self.count(count, types.len())?;
        for one in types {
            let (kind, number_is, number) = match *one {
                Type::Prd(signature) => (PRD, ItemKind::TypeNumber, signature),
                Type::Cns(signature) => (CNS, ItemKind::TypeNumber, signature),
                Type::Ext => (EXT, ItemKind::ExtNumber, 0),
            };
            self.byte(ItemKind::TypeKind, kind);
            self.byte(number_is, number);
        }
        Some(())
    }

    fn region(&mut self, kind: ItemKind, statement: &Statement) -> Option<()> {
        let field = self.open(kind);
        self.statement(statement)?;
        self.close(field)?;
        self.regions.push(Region { field, end: self.image.len() });
        Some(())
    }

    fn statement(&mut self, statement: &Statement) -> Option<()> {
        for straight in &statement.straight {
            self.straight(straight)?;
        }
        self.last(&statement.last)
    }

    fn straight(&mut self, straight: &Straight) -> Option<()> {
        match straight {
            Straight::Substitute(positions) => {
                self.byte(ItemKind::Code, SUBSTITUTE);
                self.count(ItemKind::SubstituteCount, positions.len())?;
                for &position in positions {
                    self.byte(ItemKind::Position, position);
                }
                Some(())
            }
            Straight::Let { signature, symbol } => {
                self.byte(ItemKind::Code, LET);
                self.byte(ItemKind::Signature, *signature);
                self.byte(ItemKind::Symbol, *symbol);
                Some(())
            }
            Straight::New { signature, captures, clauses, offset: _ } => {
                self.byte(ItemKind::Code, NEW);
                self.byte(ItemKind::Signature, *signature);
                self.byte(ItemKind::CaptureCount, *captures);
                self.clauses(clauses)
            }
        }
    }

    fn last(&mut self, last: &Last) -> Option<()> {
        match last {
            Last::Jump(label) => {
                self.byte(ItemKind::Code, JUMP);
                self.byte(ItemKind::Label, *label);
                Some(())
            }
            Last::Extern(operation) => {
                self.byte(ItemKind::Code, EXTERN);
                self.extern_(operation)
            }
            Last::Switch { signature, clauses } => {
                self.byte(ItemKind::Code, SWITCH);
                self.byte(ItemKind::Signature, *signature);
                self.clauses(clauses)
            }
            Last::Invoke(symbol) => {
                self.byte(ItemKind::Code, INVOKE);
                self.byte(ItemKind::Symbol, *symbol);
                Some(())
            }
        }
    }

    fn clauses(&mut self, clauses: &[Clause]) -> Option<()> {
        self.count(ItemKind::ClauseCount, clauses.len())?;
        for clause in clauses {
            self.byte(ItemKind::ClauseSymbol, clause.symbol);
            self.region(ItemKind::ClauseLength, &clause.statement)?;
        }
        Some(())
    }

    fn extern_(&mut self, operation: &Extern) -> Option<()> {
        match operation {
            Extern::Lit(value, clause) => {
                self.byte(ItemKind::Operation, LIT);
                self.item(ItemKind::Literal, &value.to_be_bytes());
                self.region(ItemKind::ClauseLength, clause)
            }
            Extern::Compute(arithmetic, first, second, clause) => {
                self.operation(arithmetic_byte(*arithmetic), &[*first, *second]);
                self.region(ItemKind::ClauseLength, clause)
            }
            Extern::Ifz(position, clauses) => {
                self.operation(IFZ, &[*position]);
                self.extern_clauses(&clauses[..])
            }
            Extern::Less(first, second, clauses) => {
                self.operation(LESS, &[*first, *second]);
                self.extern_clauses(&clauses[..])
            }
            Extern::Exit(position) => {
                self.operation(EXIT, &[*position]);
                Some(())
            }
        }
    }

    fn operation(&mut self, operation: u8, positions: &[u8]) {
        self.byte(ItemKind::Operation, operation);
        for &position in positions {
            self.byte(ItemKind::Argument, position);
        }
    }

    fn extern_clauses(&mut self, clauses: &[Statement]) -> Option<()> {
        for clause in clauses {
            self.region(ItemKind::ClauseLength, clause)?;
        }
        Some(())
    }
}

fn arithmetic_byte(arithmetic: Arithmetic) -> u8 {
    match arithmetic {
        Arithmetic::Add => ADD,
        Arithmetic::Sub => SUB,
        Arithmetic::Mul => MUL,
    }
}
