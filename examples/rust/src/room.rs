//! How much memory suffices.

use crate::{MOST_BYTES, MOST_ROWS};

/// Numbers of an entry and of a row alike.
pub(crate) const FIVE: usize = 5;

/// Room to keep names in: bytes of text, entries of the name table, rows of the row table.
#[derive(Clone, Copy, Debug, PartialEq, Eq)]
pub struct Room {
    pub text: usize,
    pub names: usize,
    pub rows: usize,
}

impl Room {
    /// Suffices for any block of so many names.
    pub fn for_count(count: u32) -> Room {
        Room::for_names(count, MOST_BYTES, MOST_ROWS)
    }

    /// Suffices where no name has more bytes and no name more tokens (END not counted) than said.
    pub fn for_names(count: u32, bytes: usize, tokens: usize) -> Room {
        let names = count as usize;
        Room {
            // One more for the byte 10 behind each name.
            text: names * (bytes + 1),
            names,
            rows: names * tokens,
        }
    }
}

/// Bytes that suffice to write any input of this length. The most is taken by the name `0`:
/// two bytes of input, and twelve for its type and distance, DIGITS0 with width, and END.
pub fn bytes_for(input_length: usize) -> usize {
    6 * input_length
}
