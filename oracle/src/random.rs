//! Numbers from a seed: splitmix64, which adds 0x9E3779B97F4A7C15 to its state and mixes the sum.

pub struct Random(u64);

impl Random {
    pub fn new(seed: u64) -> Random {
        Random(seed)
    }

    pub fn next(&mut self) -> u64 {
        self.0 = self.0.wrapping_add(0x9E37_79B9_7F4A_7C15);
        let mut mixed = self.0;
        mixed = (mixed ^ (mixed >> 30)).wrapping_mul(0xBF58_476D_1CE4_E5B9);
        mixed = (mixed ^ (mixed >> 27)).wrapping_mul(0x94D0_49BB_1331_11EB);
        mixed ^ (mixed >> 31)
    }

    /// From `low` to `high`, both included; `low` where they are the wrong way round.
    pub fn between(&mut self, low: u32, high: u32) -> u32 {
        let span = high.saturating_sub(low) as u64 + 1;
        low + (self.next() % span) as u32
    }

    pub fn percent(&mut self, chance: u32) -> bool {
        self.between(0, 99) < chance
    }

    pub fn pick<T: Copy>(&mut self, from: &[T]) -> T {
        from[self.between(0, from.len() as u32 - 1) as usize]
    }

    /// Any number of 32 bits: small and large ones, ends of ranges, whole megahertz and their neighbours.
    pub fn any(&mut self) -> u32 {
        let number = match self.between(0, 4) {
            0 => 1u32 << self.between(0, 31),
            1 => self.between(0, 4294) * 1_000_000,
            2 => return self.next() as u32,
            _ => return (self.next() as u32) >> self.between(0, 31),
        };
        number.wrapping_add(self.between(0, 2)).wrapping_sub(1)
    }
}
