//! Heads: signatures and labels within the counts of document 01's "Image layout".

use std::collections::BTreeMap;

use super::given::{self, GivenPart};
use super::shape::{Given, Shape};
use super::statements::BYTES_TO_END;
use crate::layout::{
    MOST_BYTES, MOST_LABELS, MOST_PARAMETERS, MOST_SIGNATURES, MOST_SYMBOLS, MOST_WIDTH,
};
use crate::random::Random;
use crate::terms::{Signature, Statement, Type};

/// Bytes that every label needs whatever it does: its count, its body's length, and its ending.
const BYTES_OF_LABEL: usize = 1 + 2 + BYTES_TO_END;

/// A head, and the bytes that are left for bodies beyond what each needs to end.
pub(super) struct Head {
    pub(super) signatures: Vec<Signature>,
    pub(super) lists: Vec<Vec<Type>>,
    /// The bodies that are given, by label.
    pub(super) given: BTreeMap<usize, Statement>,
    pub(super) bytes_left: usize,
}

impl Head {
    pub(super) fn new(shape: &Shape, random: &mut Random) -> Self {
        let bytes = shape.bytes.min(MOST_BYTES);
        let mut part = given::part(shape.given, random);
        if part.bytes() + 2 * BYTES_OF_LABEL > bytes {
            part = given::part(Given::Nothing, random);
        }
        let bytes_left = bytes.checked_sub(part.bytes()).expect("a shape has its 64 bytes");
        let mut maker = Maker { shape, random, bytes_left, for_types: 0 };
        maker.head(part)
    }
}

struct Maker<'m> {
    shape: &'m Shape,
    random: &'m mut Random,
    /// Bytes of the image that nothing has been promised.
    bytes_left: usize,
    /// Those of them that may still be spent on symbols and types.
    for_types: usize,
}

impl Maker<'_> {
    /// Made-up signatures after the given ones, and made-up labels around the given ones.
    fn head(&mut self, part: GivenPart) -> Head {
        let GivenPart { program, first_label } = part;
        let mut signatures = program.signatures;
        let signatures_after = self.signatures_after(signatures.len());
        let labels_after = self.labels_after(first_label, program.labels.len());
        self.for_types = self.shape.head_bytes.min(self.bytes_left);
        let known = signatures.len() + signatures_after;
        signatures.extend((0..signatures_after).map(|_| self.signature(known)));
        let mut lists: Vec<Vec<Type>> = (0..first_label).map(|_| self.entry_list()).collect();
        let mut given = BTreeMap::new();
        for label in program.labels {
            given.insert(lists.len(), label.body);
            lists.push(label.parameters);
        }
        lists.extend((0..labels_after).map(|_| self.label_list(known)));
        Head { signatures, lists, given, bytes_left: self.bytes_left }
    }

    /// How many signatures are added; each takes its count byte.
    fn signatures_after(&mut self, given: usize) -> usize {
        let most = self.shape.signatures.min(MOST_SIGNATURES).saturating_sub(given);
        let count = if self.random.one_in(4) { most } else { self.random.below(most + 1) };
        let count = count.min(self.bytes_left / 8);
        self.bytes_left -= count;
        count
    }

    /// How many labels are added; each, and those before the given ones, takes what it needs.
    fn labels_after(&mut self, before: usize, given: usize) -> usize {
        let most = self.shape.labels.min(MOST_LABELS).saturating_sub(before + given);
        let affordable = (self.bytes_left / BYTES_OF_LABEL).saturating_sub(before);
        let count = self.random.up_to(most).min(affordable);
        self.bytes_left -= (before + count) * BYTES_OF_LABEL;
        count
    }

    fn signature(&mut self, known: usize) -> Signature {
        let most = self.shape.symbols.min(MOST_SYMBOLS);
        let count = if self.random.one_in(12) { 0 } else { 1.max(self.random.up_to(most)) };
        let mut symbols = Vec::new();
        while symbols.len() < count && self.spend(1) {
            let parameters = self.random.up_to(self.shape.parameters.min(MOST_PARAMETERS));
            symbols.push(self.list(parameters, known));
        }
        Signature { symbols }
    }

    /// Label 0's list: all `ext`, often empty so that the program's own run gets somewhere.
    fn entry_list(&mut self) -> Vec<Type> {
        let most = self.shape.arguments.min(MOST_WIDTH);
        let count = if self.random.one_in(2) { 0 } else { self.random.up_to(most) };
        self.list(count, 0)
    }

    fn label_list(&mut self, known: usize) -> Vec<Type> {
        let count = self.random.up_to(self.shape.label_parameters.min(MOST_WIDTH));
        self.list(count, known)
    }

    /// A list of types, cut short where no more may be spent; without signatures all `ext`.
    fn list(&mut self, count: usize, known: usize) -> Vec<Type> {
        let mut list = Vec::new();
        while list.len() < count && self.spend(2) {
            list.push(self.one_type(known));
        }
        list
    }

    fn one_type(&mut self, known: usize) -> Type {
        if known == 0 || self.random.one_in(2) {
            return Type::Ext;
        }
        let signature = self.random.below(known) as u8;
        if self.random.one_in(2) {
            Type::Prd(signature)
        } else {
            Type::Cns(signature)
        }
    }

    fn spend(&mut self, bytes: usize) -> bool {
        let enough = self.for_types >= bytes;
        if enough {
            self.for_types -= bytes;
            self.bytes_left -= bytes;
        }
        enough
    }
}
