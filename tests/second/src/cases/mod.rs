//! Families of cases. A case is made from its family and its number alone.

pub mod blocks;
pub mod damage;
pub mod edges;
mod families;
pub mod forged;
pub mod fresh;
pub mod large;
pub mod names;
pub mod random;
pub mod replays;
pub mod script;
pub mod wild;

use crate::calls::Calls;
use crate::compare::{compare, Case, Tally};
use crate::memory::{Call, Memory, Room};
use crate::refusal::DONE;
use crate::round::{gives_back, WAYS};
use random::Random;
use script::{Packed, Script};

pub struct Family {
    pub word: &'static str,
    /// How many cases a plain run makes.
    pub cases: u64,
    make: fn(&mut Random) -> Case,
}

const fn family(word: &'static str, cases: u64, make: fn(&mut Random) -> Case) -> Family {
    Family { word, cases, make }
}

pub const FAMILIES: [Family; 14] = [
    family("whole", 3_000, families::whole),
    family("steps", 3_000, families::steps),
    family("any", 3_000, families::any_calls),
    family("limits", 4_000, families::limits),
    family("damaged", 8_000, families::damaged),
    family("overlaid", 4_000, families::overlaid),
    family("wild", 8_000, families::wild_streams),
    family("hostile", 12_000, families::hostile),
    family("forged", 10_000, families::forged_tables),
    family("fresh", 8_000, families::fresh_starts),
    family("written", 4_000, families::written),
    family("punctuation", 4_000, families::punctuation),
    family("spoilt", 3_000, families::spoilt),
    family("replays", 4_000, families::replays),
];

const SEED: u64 = 0x41_7153_7572_7665;

/// The cases of a family are independent of how many others are run.
pub fn make(family: &Family, number: u64) -> Case {
    let word = family.word.bytes();
    let start = word.fold(SEED, |seed, byte| seed.wrapping_mul(257) ^ u64::from(byte));
    (family.make)(&mut Random::new(
        start ^ number.wrapping_mul(0x2545_F491_4F6C_DD1D),
    ))
}

/// Runs all families by turns, each `times` as long as a plain run; the first difference
/// ends it.
pub fn run(left: &dyn Calls, right: &dyn Calls, times: u64) -> Result<Tally, String> {
    run_part(left, right, times, (0, 1))
}

/// One of so many parts of the same cases.
pub fn run_part(
    left: &dyn Calls,
    right: &dyn Calls,
    times: u64,
    (part, parts): (u64, usize),
) -> Result<Tally, String> {
    let mut tally = Tally::new();
    let longest = FAMILIES.iter().map(|family| family.cases * times).max();
    for number in (part..longest.unwrap_or(0)).step_by(parts) {
        let wanting = |family: &&Family| number < family.cases * times;
        for family in FAMILIES.iter().filter(wanting) {
            let compared = compare(&make(family, number), left, right, &mut tally);
            compared.map_err(|found| format!("{} case {number}, {found}", family.word))?;
        }
    }
    Ok(tally)
}

/// A block read as a whole with ample room: code, value and the memory afterwards.
pub fn read_whole(block: &Packed) -> ((u32, u32), Memory) {
    let mut memory = Memory::new(block, Room::ample(block.count as usize));
    let count = block.count;
    (memory.ask(&Call::ReadBlock { count }), memory)
}

/// The names of a script's block, which reads to the end.
pub fn names_of(script: &Script) -> Vec<String> {
    let block = script.packed();
    let (answer, memory) = read_whole(&block);
    assert_eq!(answer, (DONE, block.count));
    memory.kept_texts()
}

/// What a script's block is refused with, and the name.
pub fn refused(script: &Script) -> (u32, u32) {
    let answer = read_whole(&script.packed()).0;
    assert_ne!(answer.0, DONE);
    answer
}

/// A block opened and read up to a number of names, with ample room.
pub fn read_some(block: &Packed, names: u32) -> Memory {
    let mut memory = Memory::new(block, Room::ample(block.count as usize));
    let count = block.count;
    memory.ask(&Call::Open { count });
    for _ in 0..names {
        memory.ask(&Call::Read);
    }
    memory
}

/// Names written with ample room: code, value and the memory afterwards.
pub fn write_whole(input: &[u8], names: usize) -> ((u32, u32), Memory) {
    let mut memory = Memory::to_write(8 * input.len() + 64, names);
    let input = input.to_vec();
    (memory.ask(&Call::Write { input }), memory)
}

/// What was written from an input, handed on and read as users do; how many times.
pub fn assert_given_back(input: &[u8], written: &Memory) -> usize {
    let mut times = 0;
    for way in &WAYS {
        let Case { mut memory, calls } = way.case(input, written);
        let answer = memory.ask(&calls[0]);
        let given_back = gives_back(answer, &memory, input);
        assert!(given_back, "{}: {answer:?}\n{memory}", way.word);
        times += 1;
    }
    times
}
