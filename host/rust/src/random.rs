//! Random numbers from a seed.

/// A source of random numbers (the splitmix method); the same seed gives the same numbers.
#[derive(Clone)]
pub struct Random {
    place: u64,
}

impl Random {
    /// A source with this seed.
    pub fn new(seed: u64) -> Random {
        Random { place: seed }
    }

    /// The next 64 bits.
    pub fn bits(&mut self) -> u64 {
        self.place = self.place.wrapping_add(0x9e37_79b9_7f4a_7c15);
        let mut mixed = self.place;
        mixed = (mixed ^ (mixed >> 30)).wrapping_mul(0xbf58_476d_1ce4_e5b9);
        mixed = (mixed ^ (mixed >> 27)).wrapping_mul(0x94d0_49bb_1331_11eb);
        mixed ^ (mixed >> 31)
    }

    /// Any 32-bit number.
    pub fn word(&mut self) -> u32 {
        (self.bits() >> 32) as u32
    }

    /// A number from 0 to below the limit, which isn't 0.
    pub fn below(&mut self, limit: u32) -> u32 {
        ((u64::from(self.word()) * u64::from(limit)) >> 32) as u32
    }

    /// A number from the first to the last.
    pub fn between(&mut self, first: u32, last: u32) -> u32 {
        first + self.below(last - first + 1)
    }

    /// Whether a thing happens that has this chance in a hundred.
    pub fn chance(&mut self, percent: u32) -> bool {
        self.below(100) < percent
    }

    /// One of a list that isn't empty.
    pub fn pick<T: Clone>(&mut self, list: &[T]) -> T {
        list[self.below(list.len() as u32) as usize].clone()
    }

    /// Puts a list into a random order.
    pub fn shuffle<T>(&mut self, list: &mut [T]) {
        for last in (1..list.len()).rev() {
            list.swap(last, self.below(last as u32 + 1) as usize);
        }
    }
}
