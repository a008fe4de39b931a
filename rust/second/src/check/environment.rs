//! Document 01, "Typing by position": "The environment is an ordered list of types, at most 32."

use crate::layout::{EXT, MOST_WIDTH};

/// A type as the image writes it: kind byte, number byte. In a head that has been read, equal
/// types are equal bytes, since the number of `ext` is always 0.
pub(super) type TypeBytes = [u8; 2];

/// The ordered list of types, position 0 the oldest entry.
#[derive(Clone, Copy)]
pub(super) struct Environment {
    types: [TypeBytes; MOST_WIDTH],
    width: usize,
}

impl Environment {
    /// The list of these types; there must be at most 32.
    pub(super) fn of(types: &[TypeBytes]) -> Self {
        let mut environment = Self { types: [[0; 2]; MOST_WIDTH], width: 0 };
        environment.gain(types);
        environment
    }

    /// The entries, oldest first.
    pub(super) fn entries(&self) -> &[TypeBytes] {
        &self.types[..self.width]
    }

    /// How many entries there are.
    pub(super) fn width(&self) -> usize {
        self.width
    }

    /// The youngest entry.
    pub(super) fn last(&self) -> Option<TypeBytes> {
        self.entries().last().copied()
    }

    /// Whether the entry at this position, which must exist, is `ext`.
    pub(super) fn is_ext(&self, position: usize) -> bool {
        self.entries()[position][0] == EXT
    }

    /// Whether this many more entries still give an environment.
    pub(super) fn has_place_for(&self, more: usize) -> bool {
        self.width + more <= MOST_WIDTH
    }

    /// Adds entries at the end; the caller has tested that there is place for them.
    pub(super) fn gain(&mut self, types: &[TypeBytes]) {
        self.types[self.width..self.width + types.len()].copy_from_slice(types);
        self.width += types.len();
    }

    /// Takes the last entries away; there must be that many.
    pub(super) fn lose(&mut self, entries: usize) {
        self.width -= entries;
    }
}
