//! Blocks of as many names as a block may have, and of one more.

use crate::compare::Case;
use crate::directory::MOST_NAMES;
use crate::kept::FIVE;
use crate::memory::{Call, Memory};

/// A name by its number.
type Name = fn(u32) -> String;

/// Counting names, equal names, and names that change all over.
const NAMES: [Name; 3] = [
    |number| format!("A00253:148:HM7TYDSXX:1:1101:{}:{number:05}", number / 9),
    |number| format!("same{}", number / 40_000),
    |number| format!("{:x}-{number}", number.wrapping_mul(2_654_435_761)),
];

/// The names as the writer takes them.
pub fn input(name: Name, count: u32) -> Vec<u8> {
    let line = |number| [name(number), "\n".into()].concat().into_bytes();
    (0..count).flat_map(line).collect()
}

/// Written, read as a whole, claimed upon at both ends.
pub fn cases() -> impl Iterator<Item = Case> {
    let both = |name| [case(name, MOST_NAMES), case(name, MOST_NAMES + 1)];
    NAMES.into_iter().flat_map(both)
}

fn case(name: Name, count: u32) -> Case {
    let input = input(name, count);
    let mut memory = Memory::to_write(5 * input.len(), 0);
    let names = MOST_NAMES as usize;
    memory.text.resize(input.len(), 0xEE);
    memory.names.resize(FIVE * names, 0xEEEE);
    memory.rows.resize(24 * FIVE * names, 0xEEEE);
    let claim = |number| Call::Claim {
        number,
        claimed: name(number).into_bytes(),
    };
    let calls = vec![
        Call::Write { input },
        Call::ReadBlock { count },
        Call::Read,
        claim(0),
        claim(MOST_NAMES - 1),
        claim(MOST_NAMES),
    ];
    Case { memory, calls }
}
