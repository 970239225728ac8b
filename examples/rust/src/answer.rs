//! What the library says, taken out of its 64 bits.

use std::fmt;

/// The code of "done".
const DONE: u32 = 256;
/// The value of a refusal that no name goes with.
const NO_NAME: u32 = u32::MAX;

/// Why a call was refused, and the number of the name that goes with it, if one does.
#[derive(Clone, Copy, Debug, PartialEq, Eq)]
pub struct Refusal {
    pub reason: Reason,
    pub name: Option<u32>,
}

/// The paper's refusals; as a number each is the paper's.
#[derive(Clone, Copy, Debug, PartialEq, Eq)]
#[repr(u32)]
pub enum Reason {
    Directory = 1,
    Short = 2,
    Type = 3,
    Distance = 4,
    NoRow = 5,
    Number = 6,
    Tokens = 7,
    Bytes = 8,
    Room = 9,
    Unread = 10,
    NotRead = 11,
    Count = 12,
    Outside = 13,
    TableSize = 17,
    Symbol = 18,
}

/// Each reason with the header's words for it.
const REASONS: [(Reason, &str); 15] = [
    (
        Reason::Directory,
        "directory or cursors don't lie over the bytes",
    ),
    (Reason::Short, "a span ends too early"),
    (Reason::Type, "a type that has no meaning at its position"),
    (Reason::Distance, "a distance that the name may not have"),
    (
        Reason::NoRow,
        "nothing fitting to lean on in an earlier name",
    ),
    (
        Reason::Number,
        "a number too large, or a width it doesn't fit",
    ),
    (Reason::Tokens, "no END at the last position"),
    (Reason::Bytes, "a name that SAM doesn't allow"),
    (Reason::Room, "no room"),
    (Reason::Unread, "bytes left over after the last name"),
    (Reason::NotRead, "a name that is not read yet"),
    (
        Reason::Count,
        "too many names, or a last one that isn't ended",
    ),
    (Reason::Outside, "kept numbers that point outside"),
    (Reason::TableSize, "a table size that no model has"),
    (Reason::Symbol, "a symbol outside the table"),
];

impl Reason {
    pub fn number(self) -> u32 {
        self as u32
    }

    pub fn words(self) -> &'static str {
        let mut reasons = REASONS.iter();
        let words = reasons.find(|(reason, _)| *reason == self);
        words.map_or("", |(_, words)| words)
    }

    /// None for a number that is no refusal's.
    pub fn of(number: u32) -> Option<Reason> {
        let mut reasons = REASONS.iter().map(|(reason, _)| *reason);
        reasons.find(|reason| reason.number() == number)
    }
}

impl fmt::Display for Refusal {
    fn fmt(&self, out: &mut fmt::Formatter<'_>) -> fmt::Result {
        write!(out, "refused {}", self.reason.number())?;
        if let Some(name) = self.name {
            write!(out, " at {name}")?;
        }
        write!(out, ", {}", self.reason.words())
    }
}

impl std::error::Error for Refusal {}

/// A read that wasn't refused.
#[derive(Clone, Copy, Debug, PartialEq, Eq)]
pub enum Read {
    /// The number of the name just kept.
    Kept(u32),
    /// How many names the block gave.
    Done(u32),
}

/// A claim that wasn't refused.
#[derive(Clone, Copy, Debug, PartialEq, Eq)]
pub enum Verdict {
    Confirmed,
    Denied,
}

/// The value of code 0, or the refusal.
pub(crate) fn value(answer: u64) -> Result<u32, Refusal> {
    match halves(answer) {
        (0, value) => Ok(value),
        (code, value) => Err(refusal(code, value)),
    }
}

pub(crate) fn read(answer: u64) -> Result<Read, Refusal> {
    match halves(answer) {
        (DONE, kept) => Ok(Read::Done(kept)),
        _ => value(answer).map(Read::Kept),
    }
}

pub(crate) fn verdict(answer: u64) -> Result<Verdict, Refusal> {
    let verdict = |value| match value {
        0 => Verdict::Denied,
        _ => Verdict::Confirmed,
    };
    value(answer).map(verdict)
}

fn halves(answer: u64) -> (u32, u32) {
    (answer as u32, (answer >> 32) as u32)
}

/// A code that the header doesn't have means that the archive is of another version.
fn refusal(code: u32, value: u32) -> Refusal {
    let reason = Reason::of(code).unwrap_or_else(|| panic!("the library answered code {code}"));
    // The number claimed goes with 11 always, be it the one that elsewhere says that there is none.
    let named = reason == Reason::NotRead || value != NO_NAME;
    Refusal {
        reason,
        name: named.then_some(value),
    }
}
