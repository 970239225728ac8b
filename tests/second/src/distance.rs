//! Rule 2, as C-11 reads it: which distances a name may have and which name they lead to.

use crate::refusal::Reason;

/// The type at position 0.
#[derive(Clone, Copy, Debug, PartialEq, Eq)]
pub enum Lead {
    Dup,
    Diff,
}

impl Lead {
    pub fn of_type(number: u8) -> Result<Lead, Reason> {
        match number {
            5 => Ok(Lead::Dup),
            6 => Ok(Lead::Diff),
            _ => Err(Reason::Type),
        }
    }
}

/// The number of the earlier name; DIFF 0, which every name may have, means none.
pub fn earlier(name: u32, lead: Lead, distance: u32) -> Result<Option<u32>, Reason> {
    match (lead, distance) {
        (Lead::Diff, 0) => Ok(None),
        _ if (1..=name).contains(&distance) => Ok(Some(name - distance)),
        _ => Err(Reason::Distance),
    }
}
