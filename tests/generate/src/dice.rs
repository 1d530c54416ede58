//! The dice that everything is thrown with: what they give follows from their seed alone, so that any run can be repeated.

/// The odd number nearest to 2^64 over the golden ratio: multiples of it are spread over all 64 bits.
const SPREAD: u64 = 0x9e37_79b9_7f4a_7c15;

/// A xorshift generator whose output is multiplied once more, since its lowest bits alone would be weak.
#[derive(Clone, Debug)]
pub struct Dice {
    state: u64,
}

impl Dice {
    /// Dice that start from a seed. The seed is mixed first, so that neighbouring ones do not give similar throws; the state 0 is avoided,
    /// since the generator would never leave it.
    pub fn new(seed: u64) -> Dice {
        let z = seed.wrapping_add(SPREAD);
        let z = (z ^ (z >> 30)).wrapping_mul(0xbf58_476d_1ce4_e5b9);
        let z = (z ^ (z >> 27)).wrapping_mul(0x94d0_49bb_1331_11eb);
        Dice { state: (z ^ (z >> 31)).max(1) }
    }

    /// Any word, all alike.
    pub fn word(&mut self) -> u32 {
        self.state ^= self.state >> 12;
        self.state ^= self.state << 25;
        self.state ^= self.state >> 27;
        (self.state.wrapping_mul(0x2545_f491_4f6c_dd1d) >> 32) as u32
    }

    /// A word below `n`; 0 where `n` is 0.
    pub fn below(&mut self, n: u32) -> u32 {
        ((u64::from(self.word()) * u64::from(n)) >> 32) as u32
    }

    /// A word from `least` to `most`, which is not smaller.
    pub fn between(&mut self, least: u32, most: u32) -> u32 {
        match (most - least).checked_add(1) {
            Some(width) => least + self.below(width),
            None => self.word(),
        }
    }

    /// True so many times in a hundred.
    pub fn chance(&mut self, percent: u32) -> bool {
        self.below(100) < percent
    }

    /// One of the things in a slice that is not empty.
    pub fn one_of<T: Copy>(&mut self, things: &[T]) -> T {
        things[self.below(things.len() as u32) as usize]
    }

    /// Puts the words into any order, all orders alike.
    pub fn shuffle(&mut self, words: &mut [u32]) {
        for left in (2..=words.len()).rev() {
            words.swap(left - 1, self.below(left as u32) as usize);
        }
    }
}

/// The dice of one table of a run: they follow from the run's seed and the table's number, so that it can be replayed without those before.
pub fn dice_for(seed: u64, number: u64) -> Dice {
    Dice::new(seed.wrapping_mul(SPREAD).wrapping_add(number))
}
