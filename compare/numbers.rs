//! Random numbers from a seed, evenly spread or wild.
pub struct Numbers(u64);

impl Numbers {
    pub fn new(seed: u64) -> Self {
        Numbers(seed)
    }

    /// SplitMix64.
    pub fn next(&mut self) -> u64 {
        self.0 = self.0.wrapping_add(0x9E37_79B9_7F4A_7C15);
        let mut z = self.0;
        z = (z ^ (z >> 30)).wrapping_mul(0xBF58_476D_1CE4_E5B9);
        z = (z ^ (z >> 27)).wrapping_mul(0x94D0_49BB_1331_11EB);
        z ^ (z >> 31)
    }

    pub fn below(&mut self, n: usize) -> usize {
        (self.next() % n as u64) as usize
    }

    pub fn between(&mut self, low: i32, high: i32) -> i32 {
        low + self.below((high - low + 1) as usize) as i32
    }

    /// True once in n calls, on average.
    pub fn one_in(&mut self, n: usize) -> bool {
        self.below(n) == 0
    }

    pub fn pick<T: Copy>(&mut self, from: &[T]) -> T {
        from[self.below(from.len())]
    }

    /// A number in [low, high).
    pub fn real(&mut self, low: f32, high: f32) -> f32 {
        low + (high - low) * (self.next() >> 40) as f32 / (1u64 << 24) as f32
    }

    pub fn word(&mut self) -> i16 {
        match self.below(4) {
            0 => self.pick(&[0, 1, -1, 2, 32767, -32768, -32767, 32, -32, 1024, -1024]),
            1 => self.between(-300, 300) as i16,
            _ => self.next() as u16 as i16,
        }
    }

    /// Any 32 bits, edge cases often.
    pub fn wild(&mut self) -> f32 {
        const ODD: [u32; 26] = [
            0x0000_0000, 0x8000_0000, 0x3F80_0000, 0xBF80_0000, 0x7F80_0000, 0xFF80_0000, 0x7FC0_0000, 0xFFC0_0000, 0x7F80_0001, 0xFFFF_FFFF,
            0x0000_0001, 0x8000_0001, 0x007F_FFFF, 0x807F_FFFF, 0x0080_0000, 0x7F7F_FFFF, 0xFF7F_FFFF, 0x4388_9333, 0xC388_9333, 0x4053_3333,
            0x41C8_0000, 0x3F7F_FFFF, 0x3F80_0001, 0x4F80_0000, 0x517F_FFFF, 0x2EDB_E6FF,
        ];
        match self.below(4) {
            0 => f32::from_bits(self.next() as u32),
            1 => f32::from_bits((self.next() as u32) & 0x807F_FFFF | (self.between(100, 150) as u32) << 23),
            2 => self.between(-2048, 2048) as f32 / self.pick(&[1.0, 8.0, 64.0, 4096.0, 131072.0]),
            _ => f32::from_bits(self.pick(&ODD)),
        }
    }
}
