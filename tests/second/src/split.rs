//! The writing rule's split of a name, and each token set against the earlier name.

use crate::class::{self, Class};
use crate::token::{Padded, Token};

/// "If bytes remain at position 127, all of them are one CHAR or STRING."
const REST_POSITION: usize = 127;
/// "9 digits to a number written."
const MOST_DIGITS: usize = 9;

/// A token as it is written.
#[derive(Clone, Copy, Debug, PartialEq, Eq)]
pub enum Item<'a> {
    New(Token<'a>),
    Ddelta(u8),
    Ddelta0(u8),
    Match,
}

/// The tokens of a name of allowed bytes.
pub fn split(name: &[u8]) -> Vec<Token<'_>> {
    let mut tokens = Vec::new();
    let mut left = name;
    while let Some(first) = left.first() {
        if tokens.len() + 1 == REST_POSITION {
            tokens.push(plain(left));
            break;
        }
        let class = class::of(*first);
        let (run, rest) = left.split_at(run_length(left, class));
        tokens.push(match class {
            Class::Digit => number(run),
            Class::Letter | Class::Other => plain(run),
        });
        left = rest;
    }
    tokens
}

/// The longest run of digits, cut after 9, or of letters; every other byte stands alone.
fn run_length(left: &[u8], class: Class) -> usize {
    let same = left.iter().take_while(|byte| class::of(**byte) == class);
    let most = match class {
        Class::Digit => MOST_DIGITS,
        Class::Letter => left.len(),
        Class::Other => 1,
    };
    same.count().min(most)
}

fn plain(run: &[u8]) -> Token<'_> {
    match run {
        [byte] => Token::Char(*byte),
        _ => Token::String(run),
    }
}

/// At most nine digits, so the value is below 2^32 and fits its own length.
fn number(run: &[u8]) -> Token<'_> {
    let value = run
        .iter()
        .fold(0, |sum, digit| 10 * sum + u32::from(digit - b'0'));
    match Padded::new(value, run.len() as u32) {
        Ok(padded) if run[0] == b'0' => Token::Digits0(padded),
        _ => Token::Digits(value),
    }
}

/// The token set against the earlier name's row at its position.
pub fn against<'a>(token: Token<'a>, row: Option<Token<'_>>) -> Item<'a> {
    match (token, row) {
        (token, Some(row)) if token == row => Item::Match,
        (Token::Digits(new), Some(Token::Digits(old))) => {
            step(new, old).map_or(Item::New(token), Item::Ddelta)
        }
        (Token::Digits0(new), Some(Token::Digits0(old))) if new.width() == old.width() => {
            step(new.number(), old.number()).map_or(Item::New(token), Item::Ddelta0)
        }
        _ => Item::New(token),
    }
}

/// "1 to 255 above it."
fn step(new: u32, old: u32) -> Option<u8> {
    let above = new.checked_sub(old)?;
    u8::try_from(above).ok().filter(|delta| *delta >= 1)
}
