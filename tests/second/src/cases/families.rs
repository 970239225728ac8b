//! How a case of each family is made.

use super::blocks::{planned, Planned};
use super::random::Random;
use super::wild::wild;
use super::{damage, forged, fresh, names, replays};
use crate::calls::Second;
use crate::compare::Case;
use crate::memory::{Call, Memory, Room};

/// So many claims.
fn claims(random: &mut Random, names: &[Vec<u8>], count: usize) -> Vec<Call> {
    (0..count).map(|_| a_claim(random, names)).collect()
}

/// On one of the names or on none, with its bytes or with others.
fn a_claim(random: &mut Random, names: &[Vec<u8>]) -> Call {
    let place = random.below(names.len() + 1);
    let mut claimed = names.get(place).cloned().unwrap_or_default();
    match random.below(8) {
        0 => drop(claimed.pop()),
        1 => claimed.push(random.pick(b"\n0a")),
        2 => claimed.clear(),
        3 => claimed = claimed.iter().map(|byte| byte ^ 1).collect(),
        4 => claimed = vec![b'7'; random.between(250, 260)],
        _ => {}
    }
    let number = match random.below(10) {
        0 => random.number(),
        1 => u32::MAX,
        2 => place as u32 + 1,
        _ => place as u32,
    };
    Call::Claim { number, claimed }
}

fn memory_for(random: &mut Random, planned: &Planned) -> Memory {
    let mut room = Room::ample(planned.names.len());
    room.text += random.below(3);
    room.names += random.below(6);
    room.rows += random.below(6);
    Memory::new(&planned.block, room)
}

fn a_count(random: &mut Random, count: u32) -> u32 {
    match random.below(30) {
        0 => 65_537,
        1 => count.saturating_add(1),
        2 => count.saturating_sub(1),
        3 => random.pick(&[0, 65_536, u32::MAX]),
        _ => count,
    }
}

/// A valid block read as a whole, then claimed upon.
pub fn whole(random: &mut Random) -> Case {
    let planned = planned(random, 12);
    let memory = memory_for(random, &planned);
    let count = planned.block.count;
    let mut calls = vec![Call::ReadBlock { count }, Call::Read];
    calls.extend(claims(random, &planned.names, 4));
    Case { memory, calls }
}

/// A valid block read name by name, with claims and openings between.
pub fn steps(random: &mut Random) -> Case {
    let planned = planned(random, 6);
    let memory = memory_for(random, &planned);
    let count = a_count(random, planned.block.count);
    let mut calls = vec![Call::Open { count }];
    for _ in 0..random.between(1, 20) {
        calls.push(match random.below(30) {
            0 => Call::Open {
                count: a_count(random, count),
            },
            1 => Call::ReadBlock {
                count: a_count(random, count),
            },
            2..=12 => a_claim(random, &planned.names),
            _ => Call::Read,
        });
    }
    Case { memory, calls }
}

/// Any of the calls on a block in any order. What is written takes the place of the block, and the
/// calls after it read that.
pub fn any_calls(random: &mut Random) -> Case {
    let planned = planned(random, 4);
    let others = names::good(random, 4);
    let mut memory = memory_for(random, &planned);
    let room = memory.bytes.get().len() + random.pick(&[0, 60, 600]);
    memory.bytes.resize(room, 0xEE);
    let call = |_| any_call(random, &planned, &others);
    let calls = (0..20).map(call).collect();
    Case { memory, calls }
}

fn any_call(random: &mut Random, planned: &Planned, others: &[Vec<u8>]) -> Call {
    let count = random.pick(&[planned.block.count, others.len() as u32]);
    let count = a_count(random, count);
    match random.below(20) {
        0..=2 => Call::Open { count },
        3 => Call::ReadBlock { count },
        4 => Call::Write {
            input: names::ended(others),
        },
        5..=7 => a_claim(random, &planned.names),
        8 | 9 => a_claim(random, others),
        _ => Call::Read,
    }
}

/// A valid block and room that ends around one of its names.
pub fn limits(random: &mut Random) -> Case {
    let planned = planned(random, 5);
    let mut memory = memory_for(random, &planned);
    let count = planned.block.count;
    let mut trial = memory.clone();
    trial.run(&Second, &Call::Open { count });
    for _ in 0..random.between(1, planned.names.len()) {
        trial.run(&Second, &Call::Read);
    }
    let [_, names, text, rows] = trial.state_numbers().map(|number| number as usize);
    damage::limits(random, &mut memory, text, names, rows);
    let mut calls = vec![Call::ReadBlock { count }, Call::Read, Call::Read];
    calls.extend(claims(random, &planned.names, 2));
    Case { memory, calls }
}

/// A block that was valid before a few changes.
pub fn damaged(random: &mut Random) -> Case {
    let planned = planned(random, 6);
    let mut memory = memory_for(random, &planned);
    damage::block(random, &mut memory);
    let count = a_count(random, planned.block.count);
    let calls = vec![
        Call::ReadBlock { count },
        Call::Read,
        a_claim(random, &planned.names),
        Call::Open { count },
    ];
    Case { memory, calls }
}

/// A block that was valid before some of its spans were laid over others.
pub fn overlaid(random: &mut Random) -> Case {
    let planned = planned(random, 5);
    let mut memory = memory_for(random, &planned);
    damage::overlay(random, &mut memory);
    let count = planned.block.count;
    let mut calls = vec![Call::ReadBlock { count }, Call::Read];
    calls.extend(claims(random, &planned.names, 2));
    Case { memory, calls }
}

/// Streams that nobody meant.
pub fn wild_streams(random: &mut Random) -> Case {
    let block = wild(random);
    let memory = Memory::new(&block, Room::ample(8));
    let count = a_count(random, block.count);
    let calls = vec![Call::ReadBlock { count }, Call::Read, a_claim(random, &[])];
    Case { memory, calls }
}

/// The block opened, and none, some or all of its names read.
fn read_in_part(random: &mut Random, memory: &mut Memory, planned: &Planned) {
    let count = planned.block.count;
    memory.run(&Second, &Call::Open { count });
    for _ in 0..random.below(planned.names.len() + 1) {
        memory.run(&Second, &Call::Read);
    }
}

/// Tables, state and cursors changed after some honest reads.
pub fn hostile(random: &mut Random) -> Case {
    let planned = planned(random, 6);
    let mut memory = memory_for(random, &planned);
    read_in_part(random, &mut memory, &planned);
    damage::kept(random, &mut memory);
    let mut calls = vec![Call::Read];
    calls.extend(claims(random, &planned.names, 3));
    calls.extend([Call::Read, Call::Read]);
    Case { memory, calls }
}

/// Tables that no reading left.
pub fn forged_tables(random: &mut Random) -> Case {
    let memory = forged::forged(random);
    let claim = a_claim(random, &[b"name".to_vec(), b"other".to_vec()]);
    let calls = vec![Call::Read, claim, Call::Read, Call::Read];
    Case { memory, calls }
}

/// A block with fresh starts read as a whole, damaged or not; or name by name, after some honest
/// reads and with what they kept changed or not.
pub fn fresh_starts(random: &mut Random) -> Case {
    let planned = fresh::block(random, 6);
    let mut memory = memory_for(random, &planned);
    let count = planned.block.count;
    let mut calls = vec![Call::ReadBlock { count }, Call::Read];
    match random.below(5) {
        0 => {}
        1 => damage::block(random, &mut memory),
        _ => {
            read_in_part(random, &mut memory, &planned);
            fresh::harm(random, &mut memory);
            calls = (0..count).map(|_| Call::Read).collect();
        }
    }
    calls.extend(claims(random, &planned.names, 3));
    Case { memory, calls }
}

/// Names written with room around their total, and read back.
pub fn written(random: &mut Random) -> Case {
    let names = names::good(random, 12);
    written_and_read(random, &names)
}

/// The same of names in which punctuation, letters and digits meet (C-14).
pub fn punctuation(random: &mut Random) -> Case {
    let names = names::with_punctuation(random);
    written_and_read(random, &names)
}

fn written_and_read(random: &mut Random, names: &[Vec<u8>]) -> Case {
    let input = names::ended(names);
    let mut trial = Memory::to_write(8 * input.len() + 64, 0);
    trial.run(
        &Second,
        &Call::Write {
            input: input.clone(),
        },
    );
    let [_, total] = trial.total_numbers().map(|number| number as usize);
    let room = match random.below(4) {
        0 => total.saturating_sub(1),
        1 => total,
        2 => random.below(total + 1),
        _ => total + random.below(9),
    };
    let mut memory = Memory::to_write(room, names.len());
    if random.percent(3) {
        memory.directory.resize(random.pick(&[0, 2_579, 2_581]), 0);
    }
    let count = names.len() as u32;
    let mut calls = vec![Call::Write { input }, Call::ReadBlock { count }];
    calls.extend(claims(random, names, 3));
    Case { memory, calls }
}

/// Names of which one or more are bad.
pub fn spoilt(random: &mut Random) -> Case {
    let names = names::good(random, 6);
    let mut input = names::ended(&names);
    for _ in 0..random.between(1, 2) {
        names::spoil(random, &mut input);
    }
    let room = random.pick(&[0, 100, 10_000]);
    let memory = Memory::to_write(room, 1);
    Case {
        memory,
        calls: vec![Call::Write { input }],
    }
}

/// Traces replayed into one record, one after another: each starts the table anew.
pub fn replays(random: &mut Random) -> Case {
    let mut memory = Memory::to_write(0, 0);
    replays::fill(random, &mut memory);
    let calls = (0..random.between(1, 3))
        .map(|_| replays::replay(random))
        .collect();
    Case { memory, calls }
}
