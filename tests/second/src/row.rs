//! A row as it is kept: five numbers, and the token they stand for.

use crate::directory::MOST_BYTES;
use crate::refusal::Reason;
use crate::token::{Padded, Token};

/// Kind, number, width, text start, text length.
#[derive(Clone, Copy, Debug, PartialEq, Eq)]
pub struct Row {
    pub kind: u32,
    pub number: u32,
    pub width: u32,
    pub text_start: u32,
    pub text_length: u32,
}

impl Row {
    /// The row of a token just read: what its kind doesn't use is 0.
    pub fn of(token: &Token<'_>, text_start: u32, text_length: u32) -> Row {
        let (number, width) = match token {
            Token::String(_) | Token::Char(_) => (0, 0),
            Token::Digits(number) => (*number, 0),
            Token::Digits0(padded) => (padded.number(), padded.width()),
        };
        Row {
            kind: token.kind() as u32,
            number,
            width,
            text_start,
            text_length,
        }
    }

    pub fn from_numbers(numbers: [u32; 5]) -> Row {
        let [kind, number, width, text_start, text_length] = numbers;
        Row {
            kind,
            number,
            width,
            text_start,
            text_length,
        }
    }

    pub fn numbers(&self) -> [u32; 5] {
        [
            self.kind,
            self.number,
            self.width,
            self.text_start,
            self.text_length,
        ]
    }

    /// Refusal 13 for a row, or the token it keeps. The bytes under a number row's text
    /// aren't looked at, only that they end in the used part.
    pub fn token<'a>(&self, used: &'a [u8]) -> Result<Token<'a>, Reason> {
        let text = within(used, self.text_start, self.text_length).ok_or(Reason::Outside)?;
        match (self.kind, text) {
            (1, _) => Ok(Token::String(text)),
            (2, [byte]) => Ok(Token::Char(*byte)),
            (4, _) if self.width as usize <= MOST_BYTES => self.padded(),
            (7, _) => Ok(Token::Digits(self.number)),
            _ => Err(Reason::Outside),
        }
    }

    fn padded<'a>(&self) -> Result<Token<'a>, Reason> {
        let padded = Padded::new(self.number, self.width);
        padded.map(Token::Digits0).map_err(|_| Reason::Outside)
    }
}

/// The text if it lies in the used part; the sum is of whole numbers and never wraps.
pub fn within(used: &[u8], start: u32, length: u32) -> Option<&[u8]> {
    let end = u64::from(start) + u64::from(length);
    used.get(start as usize..usize::try_from(end).ok()?)
}
