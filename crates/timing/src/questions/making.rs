//! Random numbers from a seed, and random texts made from pieces.

use rand_core::{Rng, SeedableRng};
use rand_xoshiro::SplitMix64;
use std::alloc::{AllocError, Global};

/// The random source of a question, and the texts that were made for it.
#[derive(Drop)]
pub struct RandomSource {
    /// The allocator of everything that is made.
    pub alloc: Global,
    numbers: SplitMix64,
    made: String,
}

impl RandomSource {
    /// The random numbers.
    pub fn new(alloc: Global, seed: u64) -> Self {
        RandomSource {
            alloc,
            numbers: SplitMix64::seed_from_u64(seed),
            made: String::new(alloc),
        }
    }

    /// The texts that were made for the question, in order.
    pub fn made(&self) -> &str {
        &self.made
    }

    /// A number below a bound, or 0 if the bound is 0.
    pub fn below(&mut self, bound: usize) -> usize {
        match bound {
            0 => 0,
            bound => self.numbers.next_u64() as usize % bound,
        }
    }

    /// True in one of `cases` cases.
    pub fn is_one_in(&mut self, cases: usize) -> bool {
        self.below(cases) == 0
    }

    /// An element of `choices`, or `none` if there are none.
    pub fn one_of<T: Copy>(&mut self, choices: &[T], none: T) -> T {
        match choices.get(self.below(choices.len())) {
            Some(choice) => *choice,
            None => none,
        }
    }

    /// A text of fewer pieces than the bound.
    pub fn text(&mut self, pieces: &[&str], bound: usize) -> Result<String, AllocError> {
        let mut text = String::new(self.alloc);
        for _ in 0..self.below(bound) {
            let place = self.below(pieces.len());
            if let Some(piece) = pieces.get(place) {
                text.push_str(piece)?;
            }
        }
        self.keep(&text)?;
        Ok(text)
    }

    /// A text with fewer changes than the bound, each of one character.
    pub fn mutant(
        &mut self,
        text: &str,
        pieces: &[&str],
        bound: usize,
    ) -> Result<String, AllocError> {
        let mut mutant = String::from_str(self.alloc, text)?;
        for _ in 0..self.below(bound) {
            mutant = self.changed(&mutant, pieces)?;
        }
        self.keep(&mutant)?;
        Ok(mutant)
    }

    /// A text in which a character is removed, repeated, replaced by a piece or preceded by one.
    /// The text is unchanged if no character begins at the random byte.
    fn changed(&mut self, text: &str, pieces: &[&str]) -> Result<String, AllocError> {
        let place = self.below(text.len());
        let (is_kept, added) = match self.below(4) {
            0 => (false, ""),
            1 => (true, ""),
            2 => (false, self.one_of(pieces, "")),
            _ => (true, self.one_of(pieces, "")),
        };
        let mut changed = String::new(self.alloc);
        for (index, c) in text.char_indices() {
            if index == place {
                changed.push_str(added)?;
            }
            if index != place || is_kept {
                changed.push(c)?;
            }
            if index == place && is_kept && added.is_empty() {
                changed.push(c)?;
            }
        }
        Ok(changed)
    }

    /// Adds a text to those that were made.
    pub fn keep(&mut self, text: &str) -> Result<(), AllocError> {
        write!(self.made, " {text:?}")
    }
}
