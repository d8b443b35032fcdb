//! SplitMix64: small, and the same numbers for the same seed everywhere.

pub struct Random(u64);

impl Random {
    pub fn new(seed: u64) -> Self {
        Random(seed)
    }

    /// The source of one case, so that a case can be repeated without those before it.
    pub fn of_case(seed: u64, case: u64) -> Self {
        Random(Random(seed).number() ^ Random(!case).number())
    }

    pub fn number(&mut self) -> u64 {
        self.0 = self.0.wrapping_add(0x9E37_79B9_7F4A_7C15);
        let z = (self.0 ^ (self.0 >> 30)).wrapping_mul(0xBF58_476D_1CE4_E5B9);
        let z = (z ^ (z >> 27)).wrapping_mul(0x94D0_49BB_1331_11EB);
        z ^ (z >> 31)
    }

    /// Any word, with the extreme ones and small ones often among them.
    pub fn word(&mut self) -> u32 {
        let number = self.number();
        match number >> 61 {
            0 => 0,
            1 => u32::MAX,
            2 => number as u32 % 256,
            _ => number as u32,
        }
    }

    /// A number below `end`, which is not 0. That low ones come slightly more often does not matter here.
    pub fn below(&mut self, end: usize) -> usize {
        (self.number() % end as u64) as usize
    }

    pub fn percent(&mut self, chance: usize) -> bool {
        self.below(100) < chance
    }

    pub fn pick<T: Copy>(&mut self, of: &[T]) -> T {
        of[self.below(of.len())]
    }

    pub fn shuffle<T>(&mut self, items: &mut [T]) {
        for end in (2..=items.len()).rev() {
            items.swap(end - 1, self.below(end));
        }
    }

    pub fn byte(&mut self) -> u8 {
        self.number() as u8
    }

    /// Any byte but 0, often one bit alone.
    pub fn not_zero(&mut self) -> u8 {
        let (bit, any) = (1 << self.below(8), 1 + self.below(255) as u8);
        self.pick(&[1, bit, 255, any])
    }

    pub fn fill(&mut self, bytes: &mut [u8]) {
        for chunk in bytes.chunks_mut(8) {
            chunk.copy_from_slice(&self.number().to_be_bytes()[..chunk.len()]);
        }
    }

    pub fn bytes(&mut self, count: usize) -> Vec<u8> {
        let mut bytes = vec![0; count];
        self.fill(&mut bytes);
        bytes
    }

    /// Changes one bit of one byte, often of the first or the last.
    pub fn spoil(&mut self, bytes: &mut [u8]) {
        let last = bytes.len() - 1;
        let any = self.below(bytes.len());
        bytes[self.pick(&[0, last, any])] ^= 1 << self.below(8);
    }

    /// A counter value, with those near a carry and near the end often among them.
    pub fn counter(&mut self) -> u64 {
        let small = self.below(5) as u64;
        let any = self.number();
        self.pick(&[0, small, 255, 0xFFFF_FFFF, u64::MAX - 1, u64::MAX, any, any >> 1])
    }
}
