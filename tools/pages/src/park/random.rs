//! Random numbers from a seed: `SplitMix64`.

pub struct Random(u64);

impl Random {
    pub fn new(seed: u64) -> Random {
        Random(seed)
    }

    pub fn next(&mut self) -> u64 {
        self.0 = self.0.wrapping_add(0x9E37_79B9_7F4A_7C15);
        let mixed = (self.0 ^ self.0 >> 30).wrapping_mul(0xBF58_476D_1CE4_E5B9);
        let mixed = (mixed ^ mixed >> 27).wrapping_mul(0x94D0_49BB_1331_11EB);
        mixed ^ mixed >> 31
    }

    /// A number from the least to the most one.
    pub fn between(&mut self, least: u32, most: u32) -> u32 {
        let drawn = self.next() % (u64::from(most - least) + 1);
        least + u32::try_from(drawn).unwrap_or(0)
    }

    pub fn octets<const N: usize>(&mut self) -> [u8; N] {
        std::array::from_fn(|_| {
            let [octet, ..] = self.next().to_le_bytes();
            octet
        })
    }

    /// True in so many of a hundred cases.
    pub fn per_cent(&mut self, chance: u32) -> bool {
        chance > 0 && self.between(0, 99) < chance
    }
}
