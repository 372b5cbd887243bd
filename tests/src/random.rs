//! A small seeded generator of numbers (splitmix64), so that each run can be repeated.
//!   Random::new(seed)     the generator that starts at a seed
//!   number(), byte()      any number, any byte
//!   bytes(n)              n bytes
//!   below(n)              a number from 0 to n - 1
//!   between(low, high)    a number from low to high, both included
//!   another(low, high, n) the same, but not n, which is one of them
//!   chance(percent)       true that often in a hundred
//!   choose(list)          an element of a list
//!   shuffle(list)         a list in another order

pub struct Random {
    state: u64,
}

impl Random {
    pub fn new(seed: u64) -> Random {
        Random { state: seed }
    }

    pub fn number(&mut self) -> u64 {
        self.state = self.state.wrapping_add(0x9E37_79B9_7F4A_7C15);
        let mut mixed = self.state;
        mixed = (mixed ^ (mixed >> 30)).wrapping_mul(0xBF58_476D_1CE4_E5B9);
        mixed = (mixed ^ (mixed >> 27)).wrapping_mul(0x94D0_49BB_1331_11EB);
        mixed ^ (mixed >> 31)
    }

    pub fn below(&mut self, bound: usize) -> usize {
        (self.number() % bound as u64) as usize
    }

    pub fn between(&mut self, low: usize, high: usize) -> usize {
        low + self.below(high - low + 1)
    }

    pub fn another(&mut self, low: usize, high: usize, number: usize) -> usize {
        let step = self.between(1, high - low);
        low + (number - low + step) % (high - low + 1)
    }

    pub fn byte(&mut self) -> u8 {
        self.number() as u8
    }

    /// Eight of each number.
    pub fn bytes(&mut self, length: usize) -> Vec<u8> {
        let mut bytes = vec![0; length];
        bytes.chunks_mut(8).for_each(|eight| eight.copy_from_slice(&self.number().to_le_bytes()[..eight.len()]));
        bytes
    }

    pub fn chance(&mut self, percent: usize) -> bool {
        self.below(100) < percent
    }

    pub fn choose<'a, T>(&mut self, list: &'a [T]) -> &'a T {
        &list[self.below(list.len())]
    }

    pub fn shuffle<T>(&mut self, list: &mut [T]) {
        for end in (1..list.len()).rev() {
            list.swap(end, self.below(end + 1));
        }
    }
}
