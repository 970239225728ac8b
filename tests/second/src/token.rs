//! The types of the stream and the four things a token can resolve to.

use crate::digits;
use crate::refusal::Reason;
use std::borrow::Cow;

/// The types that stand at positions 1 to 128.
#[derive(Clone, Copy, Debug, PartialEq, Eq)]
pub enum Type {
    String = 1,
    Char = 2,
    Digits0 = 4,
    Digits = 7,
    Ddelta = 11,
    Ddelta0 = 12,
    Match = 13,
    End = 14,
}

impl Type {
    pub fn of(number: u8) -> Result<Type, Reason> {
        Ok(match number {
            1 => Type::String,
            2 => Type::Char,
            4 => Type::Digits0,
            7 => Type::Digits,
            11 => Type::Ddelta,
            12 => Type::Ddelta0,
            13 => Type::Match,
            14 => Type::End,
            _ => return Err(Reason::Type),
        })
    }
}

/// A number with the width it is printed at; it always fits.
#[derive(Clone, Copy, Debug, PartialEq, Eq)]
pub struct Padded {
    number: u32,
    width: u32,
}

impl Padded {
    pub fn new(number: u32, width: u32) -> Result<Padded, Reason> {
        if digits::fits(number, width) {
            Ok(Padded { number, width })
        } else {
            Err(Reason::Number)
        }
    }

    pub fn number(self) -> u32 {
        self.number
    }

    pub fn width(self) -> u32 {
        self.width
    }
}

/// A resolved token. Equality is "equal in kind and values".
#[derive(Clone, Copy, Debug, PartialEq, Eq)]
pub enum Token<'a> {
    String(&'a [u8]),
    Char(u8),
    Digits0(Padded),
    Digits(u32),
}

impl<'a> Token<'a> {
    pub fn kind(&self) -> Type {
        match self {
            Token::String(_) => Type::String,
            Token::Char(_) => Type::Char,
            Token::Digits0(_) => Type::Digits0,
            Token::Digits(_) => Type::Digits,
        }
    }

    pub fn printed(&self) -> Cow<'a, [u8]> {
        match *self {
            Token::String(text) => Cow::Borrowed(text),
            Token::Char(byte) => Cow::Owned(vec![byte]),
            Token::Digits(number) => Cow::Owned(digits::print(number)),
            Token::Digits0(padded) => Cow::Owned(digits::pad(padded.number, padded.width)),
        }
    }
}

/// The sum of a delta, "below 2^32".
pub fn add(number: u32, delta: u8) -> Result<u32, Reason> {
    number.checked_add(u32::from(delta)).ok_or(Reason::Number)
}
