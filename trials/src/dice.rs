//! Numbers in random order, the same in each run.

/// Each number is made of the one before by shifts.
#[derive(Clone, Debug)]
pub struct Dice(u64);

impl Dice {
    /// Another seed makes other numbers.
    pub fn new(seed: u64) -> Dice {
        Dice(seed.wrapping_mul(0x9e37_79b9_7f4a_7c15) | 1)
    }

    /// The next number.
    pub fn number(&mut self) -> u64 {
        let mut next = self.0;
        next ^= next << 13;
        next ^= next >> 7;
        next ^= next << 17;
        self.0 = next;
        next.wrapping_mul(0x2545_f491_4f6c_dd1d)
    }

    /// A number below another one.
    pub fn below(&mut self, end: u64) -> u64 {
        (self.number() >> 11) % end.max(1)
    }

    /// One of some numbers.
    pub fn one_of(&mut self, numbers: &[u64]) -> u64 {
        numbers[self.below(numbers.len() as u64) as usize]
    }

    /// True so many times of a hundred.
    pub fn is_in(&mut self, percent: u64) -> bool {
        self.below(100) < percent
    }
}
