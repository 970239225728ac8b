//! A small seeded generator (splitmix64), so that every case can be made again.

#[derive(Clone)]
pub struct Random {
    state: u64,
}

impl Random {
    pub fn new(seed: u64) -> Random {
        Random { state: seed }
    }

    pub fn draw(&mut self) -> u64 {
        self.state = self.state.wrapping_add(0x9E37_79B9_7F4A_7C15);
        let mixed = (self.state ^ (self.state >> 30)).wrapping_mul(0xBF58_476D_1CE4_E5B9);
        let mixed = (mixed ^ (mixed >> 27)).wrapping_mul(0x94D0_49BB_1331_11EB);
        mixed ^ (mixed >> 31)
    }

    /// Below the limit, which is at least 1.
    pub fn below(&mut self, limit: usize) -> usize {
        (self.draw() % limit as u64) as usize
    }

    pub fn between(&mut self, low: usize, high: usize) -> usize {
        low + self.below(high - low + 1)
    }

    pub fn percent(&mut self, chance: usize) -> bool {
        self.below(100) < chance
    }

    pub fn pick<T: Copy>(&mut self, choices: &[T]) -> T {
        choices[self.below(choices.len())]
    }

    pub fn byte(&mut self) -> u8 {
        self.draw() as u8
    }

    pub fn number(&mut self) -> u32 {
        self.draw() as u32
    }

    pub fn digit(&mut self) -> u8 {
        b'0' + self.below(10) as u8
    }

    /// A byte SAM allows: 33 to 126 but 64.
    pub fn allowed(&mut self) -> u8 {
        match self.between(33, 125) as u8 {
            low @ ..=63 => low,
            high => high + 1,
        }
    }

    /// Numbers where the count of digits changes, the largest ones, and any others.
    pub fn printed_number(&mut self) -> u32 {
        let power = 10_u32.pow(self.below(10) as u32);
        match self.below(8) {
            0 => power,
            1 => power - 1,
            2 => u32::MAX - self.below(300) as u32,
            3 => self.number(),
            4 => self.below(10) as u32,
            _ => self.below(100_000) as u32,
        }
    }
}
