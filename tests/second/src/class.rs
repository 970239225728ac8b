//! What each of the 256 byte values is to a name: its class, and beside it whether SAM allows it.

/// C-14: "The answer about a byte now has three classes."
#[derive(Clone, Copy, Debug, PartialEq, Eq)]
pub enum Class {
    Digit,
    /// A to Z and a to z.
    Letter,
    Other,
}

pub fn of(byte: u8) -> Class {
    match byte {
        b'0'..=b'9' => Class::Digit,
        b'A'..=b'Z' | b'a'..=b'z' => Class::Letter,
        _ => Class::Other,
    }
}

pub fn is_allowed(byte: u8) -> bool {
    matches!(byte, 33..=63 | 65..=126)
}

pub fn all_allowed(bytes: &[u8]) -> bool {
    bytes.iter().all(|byte| is_allowed(*byte))
}

/// Both as one number: 0 not allowed, 1 other, 2 digit, 3 letter. Digits and letters are all
/// allowed.
pub fn number(byte: u8) -> u32 {
    match of(byte) {
        Class::Letter => 3,
        Class::Digit => 2,
        Class::Other => u32::from(is_allowed(byte)),
    }
}
