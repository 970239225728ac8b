//! Every edge of a few small blocks, one after another instead of at random: each length of
//! each buffer, each span cut, each byte, cursor and kept number changed.

use super::blocks::{planned, Planned};
use super::damage::TURNS;
use super::names::ended;
use super::random::Random;
use crate::calls::Second;
use crate::compare::Case;
use crate::directory::{DIRECTORY, SPANS};
use crate::kept::FIVE;
use crate::lent::Lent;
use crate::memory::{Call, Memory, Room};
use std::ops::RangeInclusive;

/// Bytes at which some rule turns: the types, the ends of what SAM allows.
const BYTES: [u8; 17] = [
    0, 1, 2, 3, 4, 5, 6, 7, 11, 12, 13, 14, 32, 64, 127, 128, 255,
];

/// A table of numbers in memory.
type Table = fn(&mut Memory) -> &mut Lent<u32>;

pub fn cases() -> impl Iterator<Item = Case> {
    let blocks = small(false).take(6).chain(small(true).take(3));
    blocks.flat_map(|planned| {
        let edges = [
            lengths(&planned),
            spans(&planned),
            bytes(&planned),
            kept(&planned),
            writes(&planned),
        ];
        edges.into_iter().flatten()
    })
}

/// Small blocks of two names or three, with a fresh start among the later ones or without.
fn small(fresh: bool) -> impl Iterator<Item = Planned> {
    let all = (0..).map(|seed| planned(&mut Random::new(seed), 3));
    all.filter(move |planned| {
        let later = &planned.distances[1..];
        planned.block.bytes.len() < 80 && !later.is_empty() && later.contains(&0) == fresh
    })
}

/// The block with room for just its names, nothing opened.
fn exact(planned: &Planned) -> Memory {
    let mut memory = Memory::new(&planned.block, Room::ample(planned.names.len()));
    let count = planned.block.count;
    let mut trial = memory.clone();
    trial.run(&Second, &Call::ReadBlock { count });
    let [_, names, text, rows] = trial.state_numbers().map(|number| number as usize);
    memory.text.resize(text, 0xEE);
    memory.names.resize(FIVE * names, 0xEEEE);
    memory.rows.resize(FIVE * rows, 0xEEEE);
    memory
}

fn whole(planned: &Planned, memory: Memory) -> Case {
    let count = planned.block.count;
    let calls = vec![Call::ReadBlock { count }, Call::Read];
    Case { memory, calls }
}

/// Every length of what a read fills and of the bytes, up to a little more than is needed;
/// around the one right length of directory and cursors.
fn lengths(planned: &Planned) -> Vec<Case> {
    let exact = exact(planned);
    let text = 0..=exact.text.get().len() + 1;
    let names = 0..=exact.names.get().len() + FIVE + 1;
    let rows = 0..=exact.rows.get().len() + FIVE + 1;
    let bytes = 0..=exact.bytes.get().len() + 1;
    let resized = |lengths: RangeInclusive<usize>, resize: fn(&mut Memory, usize)| {
        let case = |length| {
            let mut memory = exact.clone();
            resize(&mut memory, length);
            whole(planned, memory)
        };
        lengths.map(case).collect::<Vec<Case>>()
    };
    [
        resized(text, |memory, length| memory.text.resize(length, 0xEE)),
        resized(names, |memory, length| memory.names.resize(length, 0xEEEE)),
        resized(rows, |memory, length| memory.rows.resize(length, 0xEEEE)),
        resized(bytes, |memory, length| memory.bytes.resize(length, 1)),
        resized(DIRECTORY - 2..=DIRECTORY + 2, |memory, length| {
            memory.directory.resize(length, 0);
        }),
        resized(SPANS - 2..=SPANS + 2, |memory, length| {
            memory.cursors.resize(length, 0);
        }),
    ]
    .concat()
}

/// Both bounds of each span that has bytes, one up and one down.
fn spans(planned: &Planned) -> Vec<Case> {
    let exact = exact(planned);
    let mut cases = Vec::new();
    for place in 0..planned.block.directory.len() {
        let span = &planned.block.directory[place & !1..][..2];
        if span[0] == span[1] {
            continue;
        }
        for change in [1, u32::MAX] {
            let mut memory = exact.clone();
            let number = &mut memory.directory.get_mut()[place];
            *number = number.wrapping_add(change);
            cases.push(whole(planned, memory));
        }
    }
    cases
}

fn bytes(planned: &Planned) -> Vec<Case> {
    let exact = exact(planned);
    let change = |place: usize, byte: u8| {
        let mut memory = exact.clone();
        memory.bytes.get_mut()[place] = byte;
        whole(planned, memory)
    };
    let places = 0..planned.block.bytes.len();
    places
        .flat_map(|place| BYTES.map(|byte| change(place, byte)))
        .collect()
}

/// After each name: each number of the state, the entries and the rows at every turn, and each
/// cursor around both bounds of its span.
fn kept(planned: &Planned) -> Vec<Case> {
    let mut memory = exact(planned);
    let count = planned.block.count;
    memory.run(&Second, &Call::Open { count });
    let mut cases = Vec::new();
    for _ in 0..count {
        memory.run(&Second, &Call::Read);
        let [_, kept, _, used] = memory.state_numbers().map(|number| number as usize);
        cases.extend(turned(planned, &memory, state, 4));
        cases.extend(turned(planned, &memory, names, FIVE * kept));
        cases.extend(turned(planned, &memory, rows, FIVE * used));
        cases.extend(moved(&memory));
    }
    cases
}

/// Each cursor of a span that has bytes; the last span of all stands for those that have none.
fn moved(memory: &Memory) -> Vec<Case> {
    let spans = memory.directory.get().chunks_exact(2).enumerate();
    let told = spans.filter(|(place, span)| span[0] < span[1] || *place == SPANS - 1);
    let mut cases = Vec::new();
    for (place, span) in told {
        for bound in span {
            for cursor in [bound.wrapping_sub(1), *bound, bound + 1] {
                let mut memory = memory.clone();
                memory.cursors.get_mut()[place] = cursor;
                let calls = vec![Call::Read, Call::Read];
                cases.push(Case { memory, calls });
            }
        }
    }
    cases
}

/// The names written with every length of the bytes, up to one more than they take.
fn writes(planned: &Planned) -> Vec<Case> {
    let input = ended(&planned.names);
    let count = planned.block.count;
    let case = |length| Case {
        memory: Memory::to_write(length, planned.names.len()),
        calls: vec![
            Call::Write {
                input: input.clone(),
            },
            Call::ReadBlock { count },
        ],
    };
    let mut trial = case(6 * input.len());
    trial.memory.run(&Second, &trial.calls[0]);
    let [_, total] = trial.memory.total_numbers();
    (0..=total as usize + 1).map(case).collect()
}

fn turned(planned: &Planned, memory: &Memory, table: Table, length: usize) -> Vec<Case> {
    let calls = |number: usize| Call::Claim {
        number: number as u32,
        claimed: planned.names[number].clone(),
    };
    let mut calls: Vec<Call> = (0..planned.names.len()).map(calls).collect();
    calls.push(Call::Read);
    let change = |place: usize, turn: usize| {
        let mut memory = memory.clone();
        let number = &mut table(&mut memory).get_mut()[place];
        let near = [number.wrapping_add(1), number.wrapping_sub(1)];
        *number = *near.get(turn).unwrap_or_else(|| &TURNS[turn - near.len()]);
        let calls = calls.clone();
        Case { memory, calls }
    };
    let turns = |place| (0..TURNS.len() + 2).map(move |turn| (place, turn));
    let changes = (0..length).flat_map(turns);
    changes.map(|(place, turn)| change(place, turn)).collect()
}

fn state(memory: &mut Memory) -> &mut Lent<u32> {
    &mut memory.state
}

fn names(memory: &mut Memory) -> &mut Lent<u32> {
    &mut memory.names
}

fn rows(memory: &mut Memory) -> &mut Lent<u32> {
    &mut memory.rows
}
