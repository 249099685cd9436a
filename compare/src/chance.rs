//! Chance from a seed, so that a run can be repeated.

pub struct Chance(u64);

impl Chance {
    pub fn new(seed: u64) -> Chance {
        Chance::of(seed, 0)
    }

    /// The chance of one input of a run, which can so be drawn without those before it.
    pub fn of(seed: u64, input: u64) -> Chance {
        Chance(mixed(mixed(seed).wrapping_add(input)) | 1)
    }

    pub fn below(&mut self, bound: usize) -> usize {
        // Xorshift; its low bits are the weaker ones.
        self.0 ^= self.0 << 13;
        self.0 ^= self.0 >> 7;
        self.0 ^= self.0 << 17;
        ((self.0 >> 16) % bound as u64) as usize
    }

    pub fn one_in(&mut self, bound: usize) -> bool {
        self.below(bound) == 0
    }

    pub fn pick<T: Copy>(&mut self, list: &[T]) -> T {
        list[self.below(list.len())]
    }
}

/// Numbers that lie side by side become such that have nothing in common (splitmix).
fn mixed(number: u64) -> u64 {
    let number = number.wrapping_add(0x9E37_79B9_7F4A_7C15);
    let number = (number ^ (number >> 30)).wrapping_mul(0xBF58_476D_1CE4_E5B9);
    let number = (number ^ (number >> 27)).wrapping_mul(0x94D0_49BB_1331_11EB);
    number ^ (number >> 31)
}
