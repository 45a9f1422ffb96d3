//! Memory for the library to write: lent words between canaries.

use crate::lent::Lent;

/// So many canary words stand before and after the lent ones.
const CANARIES: usize = 16;

/// Lent words with canaries on both sides. Places of one byte begin at any
/// address, not only at multiples of eight.
pub struct Guarded<T> {
    cells: Vec<T>,
    begin: usize,
    count: usize,
    canary: T,
}

impl<T: Lent> Default for Guarded<T> {
    fn default() -> Self {
        Guarded { cells: vec![T::of(0); 2 * CANARIES], begin: CANARIES, count: 0, canary: T::of(0) }
    }
}

impl<T: Lent> Guarded<T> {
    /// Lends a copy of the words, between canaries made of the pattern.
    pub fn lend(&mut self, words: &[T], pattern: u64) {
        self.begin = CANARIES + (pattern >> 8) as usize % 8;
        self.count = words.len();
        self.canary = T::of(pattern);
        let end = self.begin + self.count;
        if self.cells.len() < end + CANARIES {
            self.cells.resize(end + CANARIES, self.canary);
        }
        self.cells[self.begin..end].copy_from_slice(words);
        for side in [self.begin - CANARIES, end] {
            self.cells[side..side + CANARIES].copy_from_slice(&[self.canary; CANARIES]);
        }
    }

    /// The lent words.
    pub fn words(&self) -> &[T] {
        &self.cells[self.begin..self.begin + self.count]
    }

    /// The lent words, and the canaries after them.
    pub fn words_and_after(&mut self) -> &mut [T] {
        let end = self.begin + self.count + CANARIES;
        &mut self.cells[self.begin..end]
    }

    /// Where the lent words begin.
    pub fn pointer(&mut self) -> *mut T {
        self.cells[self.begin..].as_mut_ptr()
    }

    /// Whether every canary still stands.
    pub fn is_intact(&self) -> bool {
        let sides = [self.begin - CANARIES, self.begin + self.count];
        sides.into_iter().all(|side| self.cells[side..side + CANARIES] == [self.canary; CANARIES])
    }
}
