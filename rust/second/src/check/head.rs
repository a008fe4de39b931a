//! Document 01, "Image layout", signatures and labels; their rows of "Refusal numbers".

use super::cursor::Cursor;
use super::environment::TypeBytes;
use crate::answer::{Fault, Verdict};
use crate::layout::{
    CNS, EXT, MOST_LABELS, MOST_PARAMETERS, MOST_SIGNATURES, MOST_SYMBOLS, MOST_WIDTH, PRD,
};

/// Where the parts of a head that has been read stand in the image.
///
/// A list of types stays in the image: its offset is that of its count byte. Offsets fit two
/// bytes because an image has at most 16,384 bytes.
pub(crate) struct Head {
    signatures: usize,
    labels: usize,
    /// The place in `symbols` of each signature's first symbol, and after the last one the end.
    first_symbol: [u16; MOST_SIGNATURES + 1],
    symbols: [u16; MOST_SIGNATURES * MOST_SYMBOLS],
    label_lists: [u16; MOST_LABELS],
    bodies: [u16; MOST_LABELS],
}

impl Head {
    /// How many signatures there are.
    pub(crate) fn signatures(&self) -> usize {
        self.signatures
    }

    /// How many labels there are.
    pub(crate) fn labels(&self) -> usize {
        self.labels
    }

    /// How many symbols a signature has.
    pub(crate) fn symbols(&self, signature: usize) -> usize {
        usize::from(self.first_symbol[signature + 1] - self.first_symbol[signature])
    }

    /// Offset of a symbol's parameter count.
    fn symbol_list(&self, signature: usize, symbol: usize) -> usize {
        let place = usize::from(self.first_symbol[signature]) + symbol;
        usize::from(self.symbols[place])
    }

    /// A symbol's parameters.
    pub(super) fn parameters<'i>(
        &self,
        image: &'i [u8],
        signature: usize,
        symbol: usize,
    ) -> &'i [TypeBytes] {
        list(image, self.symbol_list(signature, symbol))
    }

    /// How many parameters a symbol has.
    pub(crate) fn parameter_count(&self, image: &[u8], signature: usize, symbol: usize) -> usize {
        usize::from(image[self.symbol_list(signature, symbol)])
    }

    /// A label's list of types.
    pub(super) fn label<'i>(&self, image: &'i [u8], label: usize) -> &'i [TypeBytes] {
        list(image, usize::from(self.label_lists[label]))
    }

    /// How many arguments a run must be given: the length of label 0's list.
    pub(crate) fn argument_count(&self, image: &[u8]) -> usize {
        usize::from(image[usize::from(self.label_lists[0])])
    }

    /// Offset of the first byte of a label's body, after its length field.
    pub(crate) fn body(&self, label: usize) -> usize {
        usize::from(self.bodies[label])
    }

    /// Notes where a label's body begins.
    pub(super) fn note_body(&mut self, label: usize, offset: usize) {
        self.bodies[label] = offset as u16;
    }
}

/// The list of types whose count byte stands at this offset.
fn list(image: &[u8], offset: usize) -> &[TypeBytes] {
    let count = usize::from(image[offset]);
    let bytes = &image[offset + 1..offset + 1 + 2 * count];
    bytes.as_chunks::<2>().0
}

/// Reads signatures and labels.
pub(super) fn read(cursor: &mut Cursor) -> Result<Head, Verdict> {
    let mut head = Head {
        signatures: 0,
        labels: 0,
        first_symbol: [0; MOST_SIGNATURES + 1],
        symbols: [0; MOST_SIGNATURES * MOST_SYMBOLS],
        label_lists: [0; MOST_LABELS],
        bodies: [0; MOST_LABELS],
    };
    signatures(cursor, &mut head)?;
    labels(cursor, &mut head)?;
    Ok(head)
}

fn signatures(cursor: &mut Cursor, head: &mut Head) -> Result<(), Verdict> {
    head.signatures = cursor.count(0, MOST_SIGNATURES)?;
    let mut symbols_so_far = 0;
    for signature in 0..head.signatures {
        let symbols = cursor.count(0, MOST_SYMBOLS)?;
        for _ in 0..symbols {
            head.symbols[symbols_so_far] = cursor.at() as u16;
            symbols_so_far += 1;
            let parameters = cursor.count(0, MOST_PARAMETERS)?;
            for _ in 0..parameters {
                type_bytes(cursor, head.signatures)?;
            }
        }
        head.first_symbol[signature + 1] = symbols_so_far as u16;
    }
    Ok(())
}

fn labels(cursor: &mut Cursor, head: &mut Head) -> Result<(), Verdict> {
    head.labels = cursor.count(1, MOST_LABELS)?;
    for label in 0..head.labels {
        head.label_lists[label] = cursor.at() as u16;
        let parameters = cursor.count(0, MOST_WIDTH)?;
        for _ in 0..parameters {
            let kind_at = cursor.at();
            let [kind, _] = type_bytes(cursor, head.signatures)?;
            // Only after the whole type: 3, 6 and 7 of its number byte come first.
            if label == 0 && kind != EXT {
                return Err(Fault::Premise.at(kind_at));
            }
        }
    }
    Ok(())
}

/// Reads one type. Signatures may name later ones, so the number is tested against all of them.
fn type_bytes(cursor: &mut Cursor, signatures: usize) -> Result<TypeBytes, Verdict> {
    let kind_at = cursor.at();
    let kind = cursor.byte()?;
    match kind {
        PRD | CNS => {
            let number = cursor.name(signatures)?;
            Ok([kind, number as u8])
        }
        EXT => {
            let number_at = cursor.at();
            if cursor.byte()? != 0 {
                return Err(Fault::Unknown.at(number_at));
            }
            Ok([EXT, 0])
        }
        _ => Err(Fault::Unknown.at(kind_at)),
    }
}
