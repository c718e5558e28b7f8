//! Made-up numbers: splitmix64. Each case has dice of its own, so that one case can be made again without those before it.

pub struct Dice(u64);

fn mixed(mut z: u64) -> u64 {
    z = (z ^ (z >> 30)).wrapping_mul(0xBF58_476D_1CE4_E5B9);
    z = (z ^ (z >> 27)).wrapping_mul(0x94D0_49BB_1331_11EB);
    z ^ (z >> 31)
}

impl Dice {
    /// The dice of one case of one part.
    pub fn new(seed: u64, part: u64, case: u64) -> Dice {
        let part = mixed(part.wrapping_add(0x7061_7274));
        let case = mixed(case.wrapping_add(0x6361_7365_0000));
        Dice(mixed(seed) ^ part.rotate_left(17) ^ case)
    }

    /// Eight bytes.
    pub fn eight(&mut self) -> u64 {
        self.0 = self.0.wrapping_add(0x9E37_79B9_7F4A_7C15);
        mixed(self.0)
    }

    /// A number from 0 to n - 1; 0 where n is 0.
    pub fn below(&mut self, n: usize) -> usize {
        ((u128::from(self.eight()) * n as u128) >> 64) as usize
    }

    /// A number from `low` to `high`, both included.
    pub fn from(&mut self, low: usize, high: usize) -> usize {
        low + self.below(high - low + 1)
    }

    /// True in so many cases of a hundred.
    pub fn percent(&mut self, n: usize) -> bool {
        self.below(100) < n
    }

    pub fn byte(&mut self) -> u8 {
        (self.eight() >> 56) as u8
    }

    pub fn two(&mut self) -> u16 {
        (self.eight() >> 48) as u16
    }

    /// One of the given, which are not none.
    pub fn one<T: Copy>(&mut self, of: &[T]) -> T {
        of[self.below(of.len())]
    }

    pub fn fill(&mut self, bytes: &mut [u8]) {
        for chunk in bytes.chunks_mut(8) {
            let word = self.eight().to_le_bytes();
            chunk.copy_from_slice(&word[..chunk.len()]);
        }
    }

    pub fn bytes(&mut self, n: usize) -> Vec<u8> {
        let mut bytes = vec![0; n];
        self.fill(&mut bytes);
        bytes
    }
}
