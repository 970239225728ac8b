//! Tables that no reading left: rows of any shape, texts anywhere, and a name that leans on them.

use super::damage::near;
use super::random::Random;
use super::script::Script;
use crate::kept::FIVE;
use crate::memory::{Memory, Room};

/// A memory in which some names seem to be kept and the next two are to be read.
pub fn forged(random: &mut Random) -> Memory {
    let kept = random.between(1, 4);
    let most = 255 * kept;
    let used = random.pick(&[1, 20, 20, 255, most]).min(most);
    let rows = row_table(random, used);
    let names = name_table(random, kept, used, rows.len() / FIVE);
    let block = leaning(random, kept, &rows);
    let room = Room {
        text: used + random.pick(&[0, 100, 600]),
        names: FIVE * (kept + 2),
        rows: rows.len() + random.pick(&[0, 9, 600]),
    };
    let mut memory = Memory::new(&block.packed(), room);
    for byte in memory.text.get_mut() {
        *byte = if random.percent(99) {
            random.allowed()
        } else {
            random.byte()
        };
    }
    memory.names.get_mut()[..names.len()].copy_from_slice(&names);
    memory.rows.get_mut()[..rows.len()].copy_from_slice(&rows);
    let starts: Vec<u32> = memory.directory.get().iter().step_by(2).copied().collect();
    memory.cursors.get_mut().copy_from_slice(&starts);
    let state = [kept + 2, kept, used, rows.len() / FIVE].map(|number| number as u32);
    memory.state.get_mut().copy_from_slice(&state);
    memory
}

/// A start and a length within the limit.
fn part(random: &mut Random, limit: usize, most: usize) -> [u32; 2] {
    let start = random.below(limit + 1);
    let length = random.between(0, most.min(limit - start));
    [start as u32, length as u32]
}

/// Now and then a number that isn't what it should be.
fn slip(random: &mut Random, numbers: &mut [u32], chance: usize) {
    if random.percent(chance) {
        let place = random.below(numbers.len());
        numbers[place] = near(random, numbers[place]);
    }
}

fn row_table(random: &mut Random, used: usize) -> Vec<u32> {
    let count = random.pick(&[1, 3, 6, 6, 127]);
    (0..count).flat_map(|_| row(random, used)).collect()
}

fn row(random: &mut Random, used: usize) -> [u32; 5] {
    let number = random.printed_number();
    let digits = number.to_string().len() as u32;
    let width = random.pick(&[digits, digits, digits + 1, 10, 100, 254]);
    let longest = random.pick(&[0, 3, 10, 10, 300]);
    let [start, length] = part(random, used, longest);
    let mut row = match random.pick(&[1, 2, 4, 7]) {
        2 => [2, number, width, start.min(used as u32 - 1), 1],
        kind => [kind, number, width, start, length],
    };
    slip(random, &mut row, 2);
    row
}

fn name_table(random: &mut Random, kept: usize, used: usize, rows: usize) -> Vec<u32> {
    let entry = |_| {
        let start = random.below(used);
        let length = random.between(1, 254.min(used - start));
        let first = random.below(rows);
        let count = random.between(1, rows - first);
        let numbers = [start, length, first, count, 9];
        let mut entry = numbers.map(|number| number as u32);
        slip(random, &mut entry, 5);
        entry
    };
    (0..kept).flat_map(entry).collect()
}

/// Two names that match and step, by the kinds of the rows at the front of the table; now and
/// then one starts afresh.
fn leaning(random: &mut Random, kept: usize, rows: &[u32]) -> Script {
    let mut script = Script::new();
    for more in 0..2 {
        let distance = random.between(1, kept + more) as u32;
        if random.percent(20) {
            script = script.dup(distance);
            continue;
        }
        script = script.diff(if random.percent(10) { 0 } else { distance });
        let most = random.pick(&[1, 2, 4, 125]);
        let tokens = random.between(0, most.min(rows.len() / FIVE));
        for place in 0..tokens {
            script = lean(random, script, rows[FIVE * place]);
        }
        script = script.string(b"").char(random.allowed()).end();
    }
    script
}

fn lean(random: &mut Random, script: Script, kind: u32) -> Script {
    match (random.below(12), kind) {
        (0, _) => script.ddelta(random.byte()),
        (1, _) => script.ddelta0(random.byte()),
        (2..=5, 4) => script.ddelta0(random.byte()),
        (2..=5, 7) => script.ddelta(random.byte()),
        _ => script.matched(),
    }
}
