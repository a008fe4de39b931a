//! Stands for no part of document 01: the numbers from which images are made up.
//!
//! The generator is splitmix64. It is written out here so that a seed means the same image on
//! every machine and for every crate that compares with this one.

/// A stream of numbers that its seed decides.
#[derive(Clone, Debug)]
pub struct Random {
    state: u64,
}

impl Random {
    /// The stream of this seed.
    pub fn new(seed: u64) -> Self {
        Self { state: seed }
    }

    /// The next 64 bits.
    pub fn bits(&mut self) -> u64 {
        self.state = self.state.wrapping_add(0x9E37_79B9_7F4A_7C15);
        let mut bits = self.state;
        bits = (bits ^ (bits >> 30)).wrapping_mul(0xBF58_476D_1CE4_E5B9);
        bits = (bits ^ (bits >> 27)).wrapping_mul(0x94D0_49BB_1331_11EB);
        bits ^ (bits >> 31)
    }

    /// A number below `bound`, which must not be 0.
    pub fn below(&mut self, bound: usize) -> usize {
        let wide = u128::from(self.bits()) * bound as u128;
        (wide >> 64) as usize
    }

    /// A number from `least` to `most`, both included.
    pub fn between(&mut self, least: usize, most: usize) -> usize {
        least + self.below(most - least + 1)
    }

    /// A number from 0 to `most`: mostly a small one, but each occurs, and `most` often enough.
    pub fn up_to(&mut self, most: usize) -> usize {
        match self.below(16) {
            0 => most,
            1..=3 => self.below(most + 1),
            _ => self.below(most.min(3) + 1),
        }
    }

    /// True once in `of` times.
    pub fn one_in(&mut self, of: usize) -> bool {
        self.below(of) == 0
    }

    /// A byte.
    pub fn byte(&mut self) -> u8 {
        self.bits() as u8
    }

    /// One of these, `None` if there is none.
    pub fn pick<T: Copy>(&mut self, from: &[T]) -> Option<T> {
        if from.is_empty() {
            return None;
        }
        Some(from[self.below(from.len())])
    }

    /// One of these, each as likely as its weight says; `None` if all weights are 0.
    pub fn weighted<T: Copy>(&mut self, from: &[(T, usize)]) -> Option<T> {
        let total: usize = from.iter().map(|(_, weight)| weight).sum();
        if total == 0 {
            return None;
        }
        let mut place = self.below(total);
        for &(one, weight) in from {
            if place < weight {
                return Some(one);
            }
            place -= weight;
        }
        None
    }

    /// A 64-bit integer: small, at an edge of the 64 bits, or any.
    pub fn integer(&mut self) -> u64 {
        const EDGES: [u64; 10] = [
            0,
            1,
            2,
            u64::MAX,
            u64::MAX - 1,
            1 << 63,
            (1 << 63) - 1,
            1 << 32,
            (1 << 32) - 1,
            0x0102_0304_0506_0708,
        ];
        match self.below(4) {
            0 => EDGES[self.below(EDGES.len())],
            1 => self.bits(),
            _ => self.below(12) as u64,
        }
    }

    /// Puts these into another order.
    pub fn shuffle<T>(&mut self, things: &mut [T]) {
        for place in (1..things.len()).rev() {
            things.swap(place, self.below(place + 1));
        }
    }
}
