//! What an input can be: a block to read as a whole, a sequence of calls, names to write, names to list, or a trace to
//! replay.
//! The two that can write say how often they made each round trip.

use crate::block::{block, MOST_NAMES};
use crate::harm::harm;
use crate::input::Input;
use crate::pair::Pair;
use second::boundary;
use second::cases::script::Packed;
use second::compare::Tally;
use second::kept::FIVE;
use second::leaf::{self, LISTING_ROOM};
use second::memory::{Call, Memory, Room};
use second::refusal::DONE;

/// Calls of one sequence at most.
const MOST_CALLS: usize = 40;
/// Changes before a whole-block read at most.
const MOST_HARMS: usize = 8;

/// A block, changed here and there, read as a whole and claimed upon.
pub fn whole_block(input: &mut Input<'_>) {
    let (block, mut pair) = memory(input);
    for _ in 0..input.below(MOST_HARMS) {
        harm(input, &mut pair);
    }
    let count = count(input, &block);
    pair.call(&Call::ReadBlock { count });
    pair.call(&Call::Read);
    for number in 0..=block.count {
        let claimed = pair.name(number).to_vec();
        pair.call(&Call::Claim { number, claimed });
    }
}

/// Any calls in any order, with the memory changed between them.
pub fn call_sequence(input: &mut Input<'_>) -> Tally {
    let (block, mut pair) = memory(input);
    let count = block.count;
    pair.call(&Call::Open { count });
    for _ in 0..MOST_CALLS {
        if input.is_empty() {
            break;
        }
        step(input, &block, &mut pair);
    }
    pair.call(&Call::Read);
    pair.trips()
}

fn step(input: &mut Input<'_>, block: &Packed, pair: &mut Pair) {
    let call = match input.below(12) {
        0..=4 => Call::Read,
        5 => Call::Open {
            count: count(input, block),
        },
        6 => Call::ReadBlock {
            count: count(input, block),
        },
        7 | 8 => claim(input, pair),
        9 => {
            let length = input.below(64);
            Call::Write {
                input: input.take(length).to_vec(),
            }
        }
        _ => return harm(input, pair),
    };
    pair.call(&call);
}

/// Names written; what was written is read back and must be the names.
pub fn writing(input: &mut Input<'_>) -> Tally {
    let short = input.byte();
    let names = input.rest();
    let count = names.iter().filter(|byte| **byte == b'\n').count();
    // A byte of input takes at most six; 255 stands for all the room there could be.
    let room = 6 * names.len() * usize::from(short) / 255;
    let mut pair = Pair::new(Memory::to_write(room, count.min(MOST_NAMES as usize)));
    let (code, bytes) = pair.call(&Call::Write {
        input: names.to_vec(),
    });
    if code != 0 {
        return pair.trips();
    }
    let [count, total] = pair.both().total_numbers();
    assert_eq!(total, bytes, "the answer's bytes and the totals'");
    let read = pair.call(&Call::ReadBlock { count });
    if count <= MOST_NAMES {
        assert_eq!(read, (DONE, count), "what was written can be read");
        assert_eq!(kept_text(&pair), names, "what was read is what was written");
    }
    pair.trips()
}

/// Names listed, repeated so that an input reaches the most bytes that a listing takes.
pub fn listing(input: &mut Input<'_>) {
    let times = 1 + input.below(8);
    let names = input.rest().repeat(times);
    let mut outs = [vec![0xEE; LISTING_ROOM], vec![0xEE; LISTING_ROOM]];
    let second = leaf::list(&names, &mut outs[0]);
    let linked = boundary::list(&names, &mut outs[1]);
    assert_eq!(second, linked, "the answers of the listing");
    assert!(outs[0] == outs[1], "the buffers of the listing");
}

/// A trace replayed, repeated so that an input reaches the total that is halved; then another over what it left.
pub fn replay(input: &mut Input<'_>) {
    let mut pair = Pair::new(Memory::to_write(0, 0));
    let sizes = [(); 2].map(|()| size(input));
    let times = 1 + input.below(64);
    let symbols = input.rest();
    let trace = symbols.repeat(times);
    pair.call(&Call::ModelReplay {
        size: sizes[0],
        trace,
    });
    let trace = symbols.to_vec();
    pair.call(&Call::ModelReplay {
        size: sizes[1],
        trace,
    });
}

/// Mostly a table's, up to 257; now and then any number.
fn size(input: &mut Input<'_>) -> u32 {
    match input.byte() {
        0 => input.number(),
        byte @ 1..=251 => byte.into(),
        byte => u32::from(byte) + 2,
    }
}

/// The text buffer has each name followed by byte 10, which is the writer's input.
fn kept_text(pair: &Pair) -> &[u8] {
    let memory = pair.both();
    &memory.text.get()[..memory.state_numbers()[2] as usize]
}

/// A block and memory to read it into; now and then too little.
fn memory(input: &mut Input<'_>) -> (Packed, Pair) {
    let ample = input.byte();
    let block = block(input);
    let mut room = Room::ample(block.count as usize);
    if ample >= 192 {
        let names = block.count as usize;
        room = Room {
            text: input.below(64) * names,
            names: FIVE * names - input.below(8).min(FIVE * names),
            rows: input.below(64) * names,
        };
    }
    let pair = Pair::new(Memory::new(&block, room));
    (block, pair)
}

fn count(input: &mut Input<'_>, block: &Packed) -> u32 {
    match input.byte() {
        0..=199 => block.count,
        _ => input.number(),
    }
}

/// The kept name, a cut or longer one, or any bytes.
fn claim(input: &mut Input<'_>, pair: &Pair) -> Call {
    let number = match input.byte() {
        byte @ 0..=199 => byte.into(),
        _ => input.number(),
    };
    let mut claimed = pair.name(number).to_vec();
    match input.below(5) {
        0 => drop(claimed.pop()),
        1 => claimed.push(input.byte()),
        2 => {
            let length = input.below(32);
            claimed = input.take(length).to_vec();
        }
        _ => {}
    }
    Call::Claim { number, claimed }
}
