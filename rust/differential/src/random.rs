//! Numbers that look random and come again with the same seed.

pub struct Random(u64);

impl Random {
    pub fn new(seed: u64) -> Random {
        Random(seed)
    }

    /// Any 64 bits (the generator known as splitmix64).
    pub fn bits(&mut self) -> u64 {
        self.0 = self.0.wrapping_add(0x9e37_79b9_7f4a_7c15);
        let mut x = self.0;
        x = (x ^ (x >> 30)).wrapping_mul(0xbf58_476d_1ce4_e5b9);
        x = (x ^ (x >> 27)).wrapping_mul(0x94d0_49bb_1331_11eb);
        x ^ (x >> 31)
    }

    /// From `low` to `high`, both included.
    pub fn between(&mut self, low: u64, high: u64) -> u64 {
        match (high - low).checked_add(1) {
            Some(width) => low + self.bits() % width,
            None => self.bits(),
        }
    }

    /// From `low` to `high`, and the ends as often as all the rest.
    pub fn ends_or_between(&mut self, low: u64, high: u64) -> u64 {
        match self.place(4) {
            0 => low,
            1 => high,
            _ => self.between(low, high),
        }
    }

    pub fn small(&mut self, low: u16, high: u16) -> u16 {
        self.ends_or_between(low.into(), high.into()) as u16
    }

    pub fn place(&mut self, length: usize) -> usize {
        self.between(0, length as u64 - 1) as usize
    }

    /// True once in `times`.
    pub fn once_in(&mut self, times: usize) -> bool {
        self.place(times) == 0
    }

    pub fn one_of<T: Copy>(&mut self, choice: &[T]) -> T {
        choice[self.place(choice.len())]
    }
}
