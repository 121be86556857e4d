//! Random numbers from a seed, so that a run can be had again.

/// SplitMix64.
#[derive(Clone)]
pub struct Rng(u64);

impl Rng {
    pub fn new(seed: u64) -> Rng {
        Rng(seed)
    }

    /// The numbers of one case: of its own, so that the case can be run alone.
    pub fn of_case(seed: u64, kind: usize, index: usize) -> Rng {
        let mut mixed = Rng(seed);
        let kind_seed = mixed.draw() ^ kind as u64;
        let index_seed = Rng(kind_seed).draw() ^ index as u64;
        Rng(Rng(index_seed).draw())
    }

    pub fn draw(&mut self) -> u64 {
        self.0 = self.0.wrapping_add(0x9E37_79B9_7F4A_7C15);
        let mut z = self.0;
        z = (z ^ z >> 30).wrapping_mul(0xBF58_476D_1CE4_E5B9);
        z = (z ^ z >> 27).wrapping_mul(0x94D0_49BB_1331_11EB);
        z ^ z >> 31
    }

    /// A number below `bound`, which is not 0.
    pub fn below(&mut self, bound: usize) -> usize {
        (self.draw() % bound as u64) as usize
    }

    /// A number from `low` to `high`, both included.
    pub fn within(&mut self, low: usize, high: usize) -> usize {
        low + self.below(high - low + 1)
    }

    /// A time from `low` to `high`, both included.
    pub fn time(&mut self, low: u32, high: u32) -> u32 {
        self.within(low as usize, high as usize) as u32
    }

    /// True in `parts` of 100.
    pub fn percent(&mut self, parts: usize) -> bool {
        self.below(100) < parts
    }

    pub fn pick<T: Copy>(&mut self, from: &[T]) -> T {
        from[self.below(from.len())]
    }

    /// A word: small, at an edge, or any.
    pub fn word(&mut self) -> u32 {
        match self.below(8) {
            0 => 0,
            1 | 2 => self.below(8) as u32,
            3 => self.pick(&[1 << 31, u32::MAX, u32::MAX - 1, 0xFF, 1_000_000, 1_000_001, 1028]),
            4 => 1 << self.below(32),
            _ => self.draw() as u32,
        }
    }

    /// A word that is not 0.
    pub fn word_not_0(&mut self) -> u32 {
        self.word().max(1)
    }
}
