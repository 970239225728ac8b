//! The refusals, the answers, and the one packing of both into 64 bits.

/// Why a call is refused; the number is the paper's.
#[derive(Clone, Copy, Debug, PartialEq, Eq)]
#[repr(u32)]
pub enum Reason {
    Directory = 1,
    Short = 2,
    Type = 3,
    Distance = 4,
    NoRow = 5,
    Number = 6,
    Tokens = 7,
    Bytes = 8,
    Room = 9,
    Unread = 10,
    NotKept = 11,
    Count = 12,
    Outside = 13,
    TableSize = 17,
    Symbol = 18,
}

/// A refusal and the number of the name that goes with it, if one does.
#[derive(Clone, Copy, Debug, PartialEq, Eq)]
pub struct Refusal {
    pub reason: Reason,
    pub name: Option<u32>,
}

impl Reason {
    pub fn number(self) -> u32 {
        self as u32
    }

    pub fn at(self, name: u32) -> Refusal {
        Refusal {
            reason: self,
            name: Some(name),
        }
    }
}

/// "All others carry none": a reason that nobody gave a name goes out alone.
impl From<Reason> for Refusal {
    fn from(reason: Reason) -> Self {
        Refusal { reason, name: None }
    }
}

/// What a call that isn't refused says.
#[derive(Clone, Copy, Debug, PartialEq, Eq)]
pub enum Answer {
    Opened,
    Kept(u32),
    Done(u32),
    Claimed(bool),
    Written { names: u32, bytes: u32 },
    Replayed,
}

/// The code of "done" at the C boundary.
pub const DONE: u32 = 256;
/// The value of a refusal that carries no name.
pub const NO_NAME: u32 = u32::MAX;

/// Low half the code, high half the value.
pub fn pack(answer: Result<Answer, Refusal>) -> u64 {
    let (code, value) = match answer {
        Ok(Answer::Opened | Answer::Replayed) => (0, 0),
        Ok(Answer::Kept(number)) => (0, number),
        Ok(Answer::Done(kept)) => (DONE, kept),
        Ok(Answer::Claimed(yes)) => (0, u32::from(yes)),
        Ok(Answer::Written { bytes, .. }) => (0, bytes),
        Err(refusal) => (refusal.reason.number(), refusal.name.unwrap_or(NO_NAME)),
    };
    u64::from(value) << 32 | u64::from(code)
}

/// Code and value of a packed answer.
pub fn unpack(packed: u64) -> (u32, u32) {
    (packed as u32, (packed >> 32) as u32)
}
