//! A small seeded generator of numbers (splitmix64): the same seed gives the same run everywhere.

pub struct Rng(u64);

impl Rng {
    pub fn new(seed: u64) -> Self {
        Rng(seed.wrapping_mul(0x9E37_79B9_7F4A_7C15) ^ 0xD1B5_4A32_D192_ED03)
    }

    pub fn next(&mut self) -> u64 {
        self.0 = self.0.wrapping_add(0x9E37_79B9_7F4A_7C15);
        let z = (self.0 ^ (self.0 >> 30)).wrapping_mul(0xBF58_476D_1CE4_E5B9);
        let z = (z ^ (z >> 27)).wrapping_mul(0x94D0_49BB_1331_11EB);
        z ^ (z >> 31)
    }

    /// A number below `n`, 0 if `n` is 0.
    pub fn below(&mut self, n: u32) -> u32 {
        (self.next() % u64::from(n.max(1))) as u32
    }

    /// A number from `low` to `high`, both counted.
    pub fn within(&mut self, low: u32, high: u32) -> u32 {
        low + self.below(high - low + 1)
    }

    pub fn chance(&mut self, percent: u32) -> bool {
        self.below(100) < percent
    }

    pub fn pick<'a, T>(&mut self, items: &'a [T]) -> &'a T {
        &items[self.below(items.len() as u32) as usize]
    }

    pub fn byte(&mut self) -> u8 {
        match self.below(4) {
            0 => *self.pick(&[0x00, 0x01, 0x7F, 0x80, 0xFF]),
            _ => self.next() as u8,
        }
    }

    pub fn bytes(&mut self, count: u32) -> Vec<u8> {
        (0..count).map(|_| self.byte()).collect()
    }

    pub fn shuffle<T>(&mut self, items: &mut [T]) {
        for i in (1..items.len()).rev() {
            items.swap(i, self.below(i as u32 + 1) as usize);
        }
    }

    /// The same name in another case.
    pub fn recase(&mut self, name: &[u8]) -> Vec<u8> {
        let mode = self.below(4);
        let one = |b: &u8| match mode {
            0 => b.to_ascii_lowercase(),
            1 => b.to_ascii_uppercase(),
            2 if self.chance(50) => b ^ (u8::from(b.is_ascii_alphabetic()) << 5),
            _ => *b,
        };
        name.iter().map(one).collect()
    }
}
