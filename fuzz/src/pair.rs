//! The same memory twice, and every call on both.

use second::boundary::Linked;
use second::calls::Second;
use second::compare::Tally;
use second::kept::FIVE;
use second::lent::Lent;
use second::memory::{Call, Memory};
use second::refusal::unpack;
use second::round;

pub struct Pair {
    second: Memory,
    library: Memory,
    /// The round trips that were made.
    trips: Tally,
}

impl Pair {
    pub fn new(memory: Memory) -> Pair {
        Pair {
            library: memory.clone(),
            second: memory,
            trips: Tally::new(),
        }
    }

    /// Code and value of the call; a difference ends the process. What is written is also handed on
    /// and read as users do.
    pub fn call(&mut self, call: &Call) -> (u32, u32) {
        let expected = unpack(self.second.run(&Second, call));
        let answered = unpack(self.library.run(&Linked, call));
        if expected != answered || self.second != self.library {
            let place = self.second.difference(&self.library);
            let place = place.unwrap_or_else(|| "the memory is the same".into());
            panic!(
                "{call:?}\n  (code, value) of the second program {expected:?}, of the library \
                 {answered:?}\n  second program against library: {place}\n  memory of the second \
                 program after the call:\n{}",
                self.second
            );
        }
        if let (Call::Write { input }, 0) = (call, expected.0) {
            let trips = &mut self.trips;
            let made = round::trips(input, &self.second, [&Second, &Linked], trips);
            made.unwrap_or_else(|found| panic!("{found}"));
        }
        expected
    }

    pub fn trips(self) -> Tally {
        self.trips
    }

    pub fn change(&mut self, change: impl Fn(&mut Memory)) {
        change(&mut self.second);
        change(&mut self.library);
    }

    /// One part of the memory, which is the same on both sides.
    pub fn memory<T>(&mut self, of: fn(&mut Memory) -> &mut Lent<T>) -> &Lent<T> {
        of(&mut self.second)
    }

    pub fn both(&self) -> &Memory {
        &self.second
    }

    /// The text of a kept name, as far as hostile tables allow to say which it is.
    pub fn name(&self, number: u32) -> &[u8] {
        let memory = self.both();
        let entry = memory.names.get().chunks_exact(FIVE).nth(number as usize);
        let bounds = entry.map_or((0, 0), |entry| (entry[0] as usize, entry[1] as usize));
        let text = memory.text.get().get(bounds.0..).unwrap_or(&[]);
        text.get(..bounds.1).unwrap_or(&[])
    }
}
