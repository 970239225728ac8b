//! Honest memory made dishonest: a few numbers or bytes changed, a slice made shorter.

use super::random::Random;
use crate::kept::FIVE;
use crate::lent::Lent;
use crate::memory::Memory;

/// Numbers at which some rule turns.
pub const TURNS: [u32; 20] = [
    0,
    1,
    2,
    4,
    7,
    9,
    10,
    99,
    100,
    126,
    127,
    128,
    253,
    254,
    255,
    256,
    65_535,
    65_536,
    65_537,
    u32::MAX,
];

/// A number in the place of another: near it, at a turn, or anything.
pub fn near(random: &mut Random, number: u32) -> u32 {
    match random.below(6) {
        0 | 1 => number.wrapping_add(1),
        2 | 3 => number.wrapping_sub(1),
        4 => random.pick(&TURNS),
        _ => random.number() >> random.below(32),
    }
}

fn nudge(random: &mut Random, lent: &mut Lent<u32>, within: usize) {
    let numbers = lent.get_mut();
    let limit = numbers.len().min(within);
    if limit > 0 {
        let place = random.below(limit);
        numbers[place] = near(random, numbers[place]);
    }
}

fn nudge_byte(random: &mut Random, lent: &mut Lent<u8>, within: usize) {
    let bytes = lent.get_mut();
    let limit = bytes.len().min(within);
    if limit > 0 {
        let place = random.below(limit);
        bytes[place] = match random.below(4) {
            0 => random.pick(&[0, 1, 2, 4, 5, 6, 7, 11, 12, 13, 14]),
            1 => random.pick(&[b'@', b' ', b'?', 127, 10, 255]),
            2 => bytes[place].wrapping_add(1),
            _ => random.byte(),
        };
    }
}

fn nudge_length<T: Copy>(random: &mut Random, lent: &mut Lent<T>, filler: T) {
    let length = lent.get().len();
    let changed = match random.below(4) {
        0 => length + 1,
        1 => random.below(length + 1),
        _ => length.saturating_sub(random.between(1, 6)),
    };
    lent.resize(changed, filler);
}

/// The place of a span that has bytes; the first span's if none has.
fn used_span(random: &mut Random, directory: &[u32]) -> usize {
    a_span(random, directory, |span| span[0] < span[1])
}

/// The place of a span of that sort; the first span's if there is none.
fn a_span(random: &mut Random, directory: &[u32], sort: impl Fn(&[u32]) -> bool) -> usize {
    let spans = directory.chunks_exact(2).enumerate();
    let sorted = spans.filter(|(_, span)| sort(span));
    let places: Vec<usize> = sorted.map(|(place, _)| place).collect();
    if places.is_empty() {
        0
    } else {
        random.pick(&places)
    }
}

/// Changes to the block: its bytes, its spans, the directory's length.
pub fn block(random: &mut Random, memory: &mut Memory) {
    for _ in 0..random.pick(&[1, 1, 1, 2, 4]) {
        let place = 2 * used_span(random, memory.directory.get()) + random.below(2);
        match random.below(10) {
            0..=4 => nudge_byte(random, &mut memory.bytes, usize::MAX),
            5 | 6 => {
                let number = memory.directory.get()[place];
                memory.directory.get_mut()[place] = near(random, number);
            }
            7 => swap_spans(random, memory),
            8 => nudge_length(random, &mut memory.bytes, 1),
            _ if random.percent(10) => {
                nudge_length(random, &mut memory.directory, 0);
                return;
            }
            _ => nudge(random, &mut memory.directory, usize::MAX),
        }
    }
}

fn swap_spans(random: &mut Random, memory: &mut Memory) {
    let first = 2 * used_span(random, memory.directory.get());
    let second = 2 * used_span(random, memory.directory.get());
    let directory = memory.directory.get_mut();
    directory.swap(first, second);
    directory.swap(first + 1, second + 1);
}

/// Some spans laid over others: over as many bytes as they had, or over a part.
pub fn overlay(random: &mut Random, memory: &mut Memory) {
    let length = memory.bytes.get().len();
    let directory = memory.directory.get_mut();
    for _ in 0..random.between(1, 4) {
        let from = 2 * used_span(random, directory);
        let [start, end] = [directory[from], directory[from + 1]];
        let alike = |span: &[u32]| span[1].wrapping_sub(span[0]) == end - start;
        let to = 2 * a_span(random, directory, alike);
        let (start, end) = if random.percent(75) {
            (start, end)
        } else {
            let start = random.between(start as usize, end as usize);
            (start as u32, random.between(start, length) as u32)
        };
        directory[to..to + 2].copy_from_slice(&[start, end]);
    }
}

/// Changes to what is kept: state, entries, rows, text, cursors and the lengths.
pub fn kept(random: &mut Random, memory: &mut Memory) {
    let [_, names, text, rows] = memory.state_numbers().map(|number| number as usize);
    for _ in 0..random.pick(&[1, 1, 2, 3, 6]) {
        match random.below(24) {
            0..=2 => nudge(random, &mut memory.state, 4),
            3..=9 => nudge(random, &mut memory.names, FIVE * names.min(65_536)),
            10..=16 => nudge(random, &mut memory.rows, FIVE * rows.min(65_536)),
            17 | 18 => nudge_byte(random, &mut memory.text, text),
            19 => cursor(random, memory),
            20 => nudge_length(random, &mut memory.text, 0x2E),
            21 => nudge_length(random, &mut memory.names, 3),
            22 => nudge_length(random, &mut memory.rows, 3),
            _ if random.percent(10) => nudge_length(random, &mut memory.cursors, 0),
            _ => nudge_byte(random, &mut memory.bytes, usize::MAX),
        }
    }
}

/// A cursor of a used span, set around its bounds.
fn cursor(random: &mut Random, memory: &mut Memory) {
    let place = used_span(random, memory.directory.get());
    let bounds = &memory.directory.get()[2 * place..2 * place + 2];
    let bound = bounds[random.below(2)];
    if let Some(cursor) = memory.cursors.get_mut().get_mut(place) {
        *cursor = random.pick(&[bound, bound.wrapping_add(1), bound.wrapping_sub(1)]);
    }
}

/// Room that ends at, just before or just behind what one of the names needs.
pub fn limits(random: &mut Random, memory: &mut Memory, text: usize, names: usize, rows: usize) {
    let around = |random: &mut Random, exact: usize| (exact + random.below(3)).saturating_sub(1);
    match random.below(3) {
        0 => memory.text.resize(around(random, text), 0xEE),
        1 => memory.names.resize(around(random, FIVE * names), 0xEEEE),
        _ => memory.rows.resize(around(random, FIVE * rows), 0xEEEE),
    }
}
