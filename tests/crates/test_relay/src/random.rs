//! Random numbers, the same again for the same seed.

ghost use Rattle.std.specs.Prelude.{◌<◌, ◌≤◌};

use rand_core::{Rng, SeedableRng};
use rand_xoshiro::Xoshiro256PlusPlus;

#[derive(Drop)]
pub(crate) struct Random {
    words: Xoshiro256PlusPlus,
}

impl Random {
    pub(crate) fn new(seed: u64) -> Random {
        Random {
            words: Xoshiro256PlusPlus::seed_from_u64(seed),
        }
    }

    /// A number below this one; 0 where there is none.
    pub(crate) fn below(&mut self, count: usize) -> usize
        ensures { 0 < count → result < count }
    {
        let word = (self.words.next_u64() >> 32) as usize;
        if count == 0 { 0 } else { word % count }
    }

    /// From 1 up to this number.
    pub(crate) fn up_to(&mut self, count: usize) -> usize
        ensures { 0 < count → result ≤ count }
    {
        self.below(count).saturating_add(1)
    }

    /// True once in so many times.
    pub(crate) fn once_in(&mut self, count: usize) -> bool {
        self.below(count) == 0
    }
}
