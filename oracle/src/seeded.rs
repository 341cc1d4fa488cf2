//! Random numbers that a seed, a kind and an index determine, so that every input can be made again from its recipe.

/// SplitMix64.
#[derive(Clone)]
pub struct Seeded(u64);

impl Seeded {
    pub fn new(seed: u64, kind: &str, index: u64) -> Self {
        let mut start = Self(seed);
        for byte in kind.bytes() {
            start.0 = start.0.wrapping_mul(0x100_0000_01b3) ^ u64::from(byte);
            start.next();
        }
        start.0 ^= index.wrapping_mul(0x9e37_79b9_7f4a_7c15);
        start.next();
        start
    }

    pub fn next(&mut self) -> u64 {
        self.0 = self.0.wrapping_add(0x9e37_79b9_7f4a_7c15);
        let mut z = self.0;
        z = (z ^ (z >> 30)).wrapping_mul(0xbf58_476d_1ce4_e5b9);
        z = (z ^ (z >> 27)).wrapping_mul(0x94d0_49bb_1331_11eb);
        z ^ (z >> 31)
    }

    /// A number below `limit`, which is not 0.
    pub fn below(&mut self, limit: u64) -> u64 {
        self.next() % limit
    }

    /// A number from `low` to `high`, both included.
    pub fn from_to(&mut self, low: u64, high: u64) -> u64 {
        low + self.below(high - low + 1)
    }

    pub fn one_in(&mut self, n: u64) -> bool {
        self.below(n) == 0
    }

    pub fn flag(&mut self) -> bool {
        self.one_in(2)
    }

    pub fn byte(&mut self) -> u8 {
        self.next() as u8
    }

    pub fn pick<T: Copy>(&mut self, from: &[T]) -> T {
        from[self.below(from.len() as u64) as usize]
    }

    pub fn fill(&mut self, bytes: &mut [u8]) {
        for part in bytes.chunks_mut(8) {
            let random = self.next().to_le_bytes();
            part.copy_from_slice(&random[..part.len()]);
        }
    }

    /// A 32-bit number, often at a limit.
    pub fn number(&mut self) -> u32 {
        match self.below(4) {
            0 => self.pick(&LIMITS),
            1 => self.below(64) as u32,
            2 => 1u32 << self.below(32),
            _ => self.next() as u32,
        }
    }
}

/// Numbers at which something changes: of a byte, a page, the capacities, the ledger, and of 16 and 32 bits.
pub const LIMITS: [u32; 34] = [
    0,
    1,
    2,
    7,
    8,
    9,
    31,
    32,
    255,
    256,
    257,
    4095,
    4096,
    4097,
    12287,
    12288,
    16383,
    16384,
    16385,
    20479,
    20480,
    32703,
    32704,
    32705,
    32767,
    32768,
    65471,
    65472,
    65535,
    65536,
    16_777_216,
    16_781_312,
    4_294_967_294,
    4_294_967_295,
];
