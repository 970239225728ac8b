//! Traces to replay and records to replay them into.

use super::random::Random;
use crate::memory::{Call, Memory};
use crate::model::{PLACES, RULE};

/// Sizes that no table has.
const NO_SIZES: [u32; 6] = [0, 257, 258, 512, 65_536, u32::MAX];

/// A replay of any size and trace.
pub fn replay(random: &mut Random) -> Call {
    let size = a_size(random);
    let mut trace = a_trace(random, size.clamp(1, PLACES as u32));
    if random.percent(30) {
        spoil(random, size, &mut trace);
    }
    Call::ModelReplay { size, trace }
}

fn a_size(random: &mut Random) -> u32 {
    match random.below(20) {
        0 => random.pick(&NO_SIZES),
        1 => random.number(),
        2 => 1,
        3 => 256,
        4..=8 => random.between(2, 5) as u32,
        9..=11 => 8 * random.between(1, 32) as u32,
        _ => random.between(1, 256) as u32,
    }
}

/// Symbols of a table of so many places.
fn a_trace(random: &mut Random, size: u32) -> Vec<u8> {
    let length = a_length(random, size);
    let some = random.between(1, 4).min(size as usize);
    let favourites: Vec<u8> = (0..some).map(|_| symbol(random, size)).collect();
    let (often, kind) = (random.pick(&[0, 50, 90, 99]), random.below(3));
    let mut trace = Vec::new();
    while trace.len() < length {
        let next = if random.percent(often) {
            random.pick(&favourites)
        } else {
            symbol(random, size)
        };
        // Runs have one symbol overtake others that stand still.
        let times = if kind == 0 { random.between(1, 300) } else { 1 };
        trace.extend(vec![next; times.min(length - trace.len())]);
    }
    trace
}

fn symbol(random: &mut Random, size: u32) -> u8 {
    random.below(size as usize) as u8
}

/// None, a few, some, or about as many as bring the total to its most, once or several times.
fn a_length(random: &mut Random, size: u32) -> usize {
    let to_the_most = ((RULE.most - size) / RULE.growth) as usize;
    match random.below(20) {
        0 => 0,
        1..=8 => random.between(1, 40),
        9..=14 => random.between(40, 2_000),
        15..=17 => to_the_most + random.below(3) - 1,
        _ => random.between(to_the_most, 4 * to_the_most),
    }
}

/// A symbol outside the table, if a byte can be one.
fn spoil(random: &mut Random, size: u32, trace: &mut Vec<u8>) {
    let Ok(first) = u8::try_from(size) else {
        return;
    };
    let place = match random.below(3) {
        0 => 0,
        1 => trace.len(),
        _ => random.below(trace.len() + 1),
    };
    let outside = random.pick(&[first, first.saturating_add(1), 255]);
    trace.insert(place, outside);
}

/// Nothing, the largest numbers or any: what the record held isn't looked at.
pub fn fill(random: &mut Random, memory: &mut Memory) {
    let same = random.pick(&[0, 1, 255, u32::MAX]);
    let any = random.percent(50);
    for lent in [
        &mut memory.symbols,
        &mut memory.frequencies,
        &mut memory.total,
    ] {
        let numbers = lent.get_mut().iter_mut();
        numbers.for_each(|number| *number = if any { random.number() } else { same });
    }
}
