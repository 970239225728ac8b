//! An input's bytes, taken from the front. An input that has run out gives zeros, so that every
//! input means something and a longer one only adds to it.

pub struct Input<'a> {
    left: &'a [u8],
}

impl<'a> Input<'a> {
    pub fn new(bytes: &'a [u8]) -> Input<'a> {
        Input { left: bytes }
    }

    pub fn is_empty(&self) -> bool {
        self.left.is_empty()
    }

    pub fn byte(&mut self) -> u8 {
        self.take(1).first().copied().unwrap_or(0)
    }

    pub fn below(&mut self, limit: usize) -> usize {
        usize::from(self.byte()) % limit
    }

    /// A place in a table that may be longer than a byte can tell.
    pub fn place(&mut self, length: usize) -> usize {
        let number = usize::from(self.byte()) << 8 | usize::from(self.byte());
        number % length.max(1)
    }

    /// Up to so many bytes.
    pub fn take(&mut self, most: usize) -> &'a [u8] {
        let (taken, left) = self.left.split_at(most.min(self.left.len()));
        self.left = left;
        taken
    }

    /// Mostly small numbers, and those at which a rule turns: powers of ten and of two.
    pub fn number(&mut self) -> u32 {
        let shape = self.byte();
        let byte = u32::from(self.byte());
        match shape % 8 {
            0..=2 => byte,
            3 => byte << 8 | u32::from(self.byte()),
            4 => 10_u32.pow(byte % 10) - byte / 128,
            5 => u32::MAX - byte,
            6 => around_a_limit(byte),
            _ => (0..3).fold(byte, |sum, _| sum << 8 | u32::from(self.byte())),
        }
    }

    pub fn rest(&mut self) -> &'a [u8] {
        self.take(self.left.len())
    }
}

/// The limits of a block's count, and of text and rows used by so many names; one less to two more.
fn around_a_limit(byte: u32) -> u32 {
    let names = byte / 16;
    let limits = [65_536, 255 * names, 127 * names, names];
    (limits[byte as usize % 4] + byte / 4 % 4).wrapping_sub(1)
}
