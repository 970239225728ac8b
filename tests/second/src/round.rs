//! The round trip as users make it. What was written is handed on cut to its total, or in a buffer
//! that has other bytes behind it; reading it is then done, with the input's names.

use crate::calls::Calls;
use crate::cases::script::Packed;
use crate::compare::{walk, Case, Difference, Tally};
use crate::kept::FIVE;
use crate::memory::{Call, Memory, Room};
use crate::refusal::{unpack, DONE};

/// One way to hand on what was written.
pub struct Way {
    /// What its reads are called in a tally.
    pub word: &'static str,
    /// What is behind the total, made from what was there when the names were written.
    behind: fn(&[u8]) -> Vec<u8>,
}

pub const WAYS: [Way; 2] = [
    Way {
        word: "read_block cut to the total",
        behind: |_| Vec::new(),
    },
    Way {
        word: "read_block with other bytes behind",
        behind: others,
    },
];

/// None of the bytes that were there, then bytes of every value.
fn others(rest: &[u8]) -> Vec<u8> {
    rest.iter().map(|byte| !byte).chain(0..=255).collect()
}

impl Way {
    /// The reading of what was written from an input. It is lent no more than the input tells: its
    /// names' text, their entries, and a row for each byte, since no token that is written is empty.
    pub fn case(&self, input: &[u8], written: &Memory) -> Case {
        let [count, total] = written.total_numbers();
        let (bytes, rest) = written.bytes.get().split_at(total as usize);
        let block = Packed {
            bytes: [bytes, &(self.behind)(rest)].concat(),
            directory: written.directory.get().to_vec(),
            count,
        };
        let room = Room {
            text: input.len(),
            names: FIVE * names(input).len(),
            rows: FIVE * input.len(),
        };
        Case {
            memory: Memory::new(&block, room),
            calls: vec![Call::ReadBlock { count }],
        }
    }
}

/// The names of an input that was written, without their byte 10.
fn names(input: &[u8]) -> Vec<&[u8]> {
    let lines = input.split_inclusive(|byte| *byte == b'\n');
    lines.map(|line| &line[..line.len() - 1]).collect()
}

/// Done, with the input's count, its text byte for byte and its names one by one.
pub fn gives_back(answer: (u32, u32), memory: &Memory, input: &[u8]) -> bool {
    let names = names(input);
    let count = names.len() as u32;
    answer == (DONE, count)
        && memory.state_numbers()[..3] == [count, count, input.len() as u32]
        && memory.text.get() == input
        && memory.kept_names() == names
}

/// Each way on both sides, which have to agree and give back the input. The tally tells how often
/// they did.
pub fn trips(
    input: &[u8],
    written: &Memory,
    sides: [&dyn Calls; 2],
    tally: &mut Tally,
) -> Result<(), Box<Difference>> {
    for way in &WAYS {
        let case = way.case(input, written);
        let walked = walk(&case, sides, |call, answer, memory| {
            if !gives_back(unpack(answer), memory, input) {
                let input = input.to_vec();
                return Err(Box::new(Difference {
                    step: 0,
                    call: call.clone(),
                    left: answer,
                    right: answer,
                    found: format!("neither gives back {:?}", Call::Write { input }),
                    before: case.memory.clone(),
                }));
            }
            *tally.entry((way.word, unpack(answer).0)).or_default() += 1;
            Ok(())
        });
        walked.map_err(|mut difference| {
            difference.found = format!("{}: {}", way.word, difference.found);
            difference
        })?;
    }
    Ok(())
}
