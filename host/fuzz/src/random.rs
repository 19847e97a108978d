//! A seeded generator of random numbers (splitmix64).

/// The odd constant by which splitmix64 moves on.
const STEP: u64 = 0x9E37_79B9_7F4A_7C15;

/// A generator of random numbers.
#[derive(Clone)]
pub struct Random {
    state: u64,
}

impl Random {
    /// The generator of one case of a session, which depends on nothing but the
    /// session's seed and the case's number.
    pub fn of_case(seed: u64, case: u64) -> Random {
        let mut random = Random { state: seed };
        let start = random.bits() ^ case.wrapping_mul(STEP);
        random.state = start;
        random.state = random.bits();
        random
    }

    /// The next 64 bits.
    pub fn bits(&mut self) -> u64 {
        self.state = self.state.wrapping_add(STEP);
        let mut z = self.state;
        z = (z ^ (z >> 30)).wrapping_mul(0xBF58_476D_1CE4_E5B9);
        z = (z ^ (z >> 27)).wrapping_mul(0x94D0_49BB_1331_11EB);
        z ^ (z >> 31)
    }

    /// The next 32 bits.
    pub fn word(&mut self) -> u32 {
        (self.bits() >> 32) as u32
    }

    /// A number below `bound`, which is not 0.
    pub fn below(&mut self, bound: u32) -> u32 {
        ((u64::from(self.word()) * u64::from(bound)) >> 32) as u32
    }

    /// A number from `low` to `high`, both included.
    pub fn range(&mut self, low: u32, high: u32) -> u32 {
        low + self.below(high - low + 1)
    }

    /// True this many times in a hundred.
    pub fn percent(&mut self, times: u32) -> bool {
        self.below(100) < times
    }

    /// True once in this many times.
    pub fn one_in(&mut self, times: u32) -> bool {
        self.below(times) == 0
    }

    /// One of several values.
    pub fn pick<T: Copy>(&mut self, values: &[T]) -> T {
        values[self.below(values.len() as u32) as usize]
    }

    /// A number other than 0 that says yes.
    pub fn yes(&mut self) -> u32 {
        match self.below(8) {
            0..=3 => 1,
            4 => 2,
            5 => u32::MAX,
            6 => 1 << self.below(32),
            _ => self.word().max(1),
        }
    }

    /// A number of an interesting size for a 32-bit register: small, close to the
    /// ends of the signed and unsigned ranges of 16 and 32 bits, a single bit, or any.
    pub fn number(&mut self) -> u32 {
        let near = self.below(5);
        match self.below(16) {
            0..=2 => self.below(40),
            3 => self.below(40).wrapping_neg(),
            4 => 0x8000_0000_u32.wrapping_add(near).wrapping_sub(2),
            5 => 0x7FFF_FFFF - near,
            6 => near.wrapping_sub(2),
            7 => 0x0000_8000 + near - 2,
            8 => 0x0000_FFFF + near - 2,
            9 => 1 << self.below(32),
            10 => !(1 << self.below(32)),
            11 => self.word() & 0xFFFF,
            12 => self.word() >> self.below(32),
            _ => self.word(),
        }
    }
}
