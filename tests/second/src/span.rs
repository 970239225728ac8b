//! The reader of one span.

/// The bytes left to a span, and where the span ends in the block.
#[derive(Clone, Copy, Debug)]
pub struct Span<'a> {
    left: &'a [u8],
    end: u32,
}

impl<'a> Span<'a> {
    /// Nothing if the cursor is above the end or the end above the bytes.
    pub fn new(bytes: &'a [u8], cursor: u32, end: u32) -> Option<Self> {
        let left = bytes.get(cursor as usize..end as usize)?;
        Some(Span { left, end })
    }

    pub fn byte(&mut self) -> Option<u8> {
        let (first, rest) = self.left.split_first()?;
        self.left = rest;
        Some(*first)
    }

    /// The next four bytes as a number, low byte first.
    pub fn four(&mut self) -> Option<u32> {
        let (four, rest) = self.left.split_first_chunk::<4>()?;
        self.left = rest;
        Some(u32::from_le_bytes(*four))
    }

    /// The bytes up to a zero byte, which is dropped.
    pub fn text(&mut self) -> Option<&'a [u8]> {
        let zero = self.left.iter().position(|byte| *byte == 0)?;
        let text = &self.left[..zero];
        self.left = &self.left[zero + 1..];
        Some(text)
    }

    pub fn is_read(&self) -> bool {
        self.left.is_empty()
    }

    /// The place of the next byte in the block.
    pub fn cursor(&self) -> u32 {
        self.end - self.left.len() as u32
    }
}
