//! Two holders of the calls over copies of the same memory.

use crate::calls::Calls;
use crate::memory::{Call, Memory};
use crate::refusal::unpack;
use crate::round;
use std::collections::BTreeMap;
use std::fmt;

/// Memory to start from and the calls to make on it, one after another.
#[derive(Clone)]
pub struct Case {
    pub memory: Memory,
    pub calls: Vec<Call>,
}

/// How often each call gave each code, and each round trip was made, so that a run can show what
/// it met.
pub type Tally = BTreeMap<(&'static str, u32), u64>;

/// The first call at which the two answered or left memory differently, or at which neither gave
/// back what was written.
pub struct Difference {
    pub step: usize,
    pub call: Call,
    pub left: u64,
    pub right: u64,
    /// In words, where the memories differ or what else is wrong.
    pub found: String,
    pub before: Memory,
}

impl fmt::Display for Difference {
    fn fmt(&self, out: &mut fmt::Formatter<'_>) -> fmt::Result {
        let (left, right) = (unpack(self.left), unpack(self.right));
        writeln!(out, "call {}: {:?}", self.step, self.call)?;
        writeln!(
            out,
            "  left answers {left:?}, right {right:?} (code, value)"
        )?;
        writeln!(out, "  {}", self.found)?;
        writeln!(out, "  memory before the call:")?;
        write!(out, "{}", self.before)
    }
}

impl fmt::Debug for Difference {
    fn fmt(&self, out: &mut fmt::Formatter<'_>) -> fmt::Result {
        fmt::Display::fmt(self, out)
    }
}

/// Runs the case through both and adds the left answers to the tally. What is written is also
/// handed on and read as users do.
pub fn compare(
    case: &Case,
    left: &dyn Calls,
    right: &dyn Calls,
    tally: &mut Tally,
) -> Result<(), Box<Difference>> {
    let sides = [left, right];
    walk(case, sides, |call, answer, memory| {
        let code = unpack(answer).0;
        *tally.entry((call.word(), code)).or_default() += 1;
        match call {
            Call::Write { input } if code == 0 => round::trips(input, memory, sides, tally),
            _ => Ok(()),
        }
    })
}

/// Runs the case through both; after each call that they agree on comes what is to be done then.
pub fn walk(
    case: &Case,
    [left, right]: [&dyn Calls; 2],
    mut after: impl FnMut(&Call, u64, &Memory) -> Result<(), Box<Difference>>,
) -> Result<(), Box<Difference>> {
    let mut memory = case.memory.clone();
    let mut other = case.memory.clone();
    for (step, call) in case.calls.iter().enumerate() {
        let answers = [memory.run(left, call), other.run(right, call)];
        if answers[0] != answers[1] || memory != other {
            let place = memory.difference(&other);
            let found = place.map(|place| format!("left against right: {place}"));
            return Err(Box::new(Difference {
                step,
                call: call.clone(),
                left: answers[0],
                right: answers[1],
                found: found.unwrap_or_else(|| "the memory afterwards is the same".into()),
                before: before(case, left, step),
            }));
        }
        // What fails after a call is told with the call's place.
        after(call, answers[0], &memory).map_err(|mut difference| {
            difference.step = step;
            difference
        })?;
    }
    Ok(())
}

/// Made only for a difference: keeping a copy before every call would cost more than the call.
fn before(case: &Case, left: &dyn Calls, step: usize) -> Memory {
    let mut memory = case.memory.clone();
    for call in &case.calls[..step] {
        memory.run(left, call);
    }
    memory
}
