//! Changes to the memory between calls, as a hostile or mistaken caller might leave it.

use crate::input::Input;
use crate::pair::Pair;
use second::directory::{POSITIONS, STREAMS};
use second::kept::FIVE;
use second::lent::Lent;
use second::memory::Memory;

/// One change, the same for both sides. In kept tables it falls into the used part, and one
/// number behind it at most: what lies beyond is compared, but nobody looks at it.
pub fn harm(input: &mut Input<'_>, pair: &mut Pair) {
    let [_, names, text, rows] = pair.both().state_numbers().map(|used| used as usize);
    match input.below(9) {
        0 => byte(input, pair, usize::MAX, |memory| &mut memory.bytes),
        1 => byte(input, pair, text, |memory| &mut memory.text),
        2 => span_number(input, pair, 2, |memory| &mut memory.directory),
        3 => span_number(input, pair, 1, |memory| &mut memory.cursors),
        4 => number(input, pair, 4, |memory| &mut memory.state),
        5 => number(input, pair, FIVE * names, |memory| &mut memory.names),
        6 => number(input, pair, FIVE * rows, |memory| &mut memory.rows),
        7 => overlay(input, pair),
        _ => length(input, pair),
    }
}

type Of<T> = fn(&mut Memory) -> &mut Lent<T>;

fn byte(input: &mut Input<'_>, pair: &mut Pair, used: usize, of: Of<u8>) {
    let place = place(input, pair, used, of);
    let byte = input.byte();
    pair.change(|memory| {
        if let Some(changed) = of(memory).get_mut().get_mut(place) {
            *changed = byte;
        }
    });
}

fn number(input: &mut Input<'_>, pair: &mut Pair, used: usize, of: Of<u32>) {
    let place = place(input, pair, used, of);
    set(input, pair, of, place);
}

fn place<T: Copy>(input: &mut Input<'_>, pair: &mut Pair, used: usize, of: Of<T>) -> usize {
    let length = pair.memory(of).get().len();
    input.place(length.min(used.saturating_add(1)))
}

/// The place goes by position and stream, so that a change of one byte stays with the position.
fn span_number(input: &mut Input<'_>, pair: &mut Pair, numbers: usize, of: Of<u32>) {
    let span = input.below(POSITIONS) * STREAMS + input.below(STREAMS);
    let place = numbers * span + input.below(numbers);
    set(input, pair, of, place);
}

fn set(input: &mut Input<'_>, pair: &mut Pair, of: Of<u32>, place: usize) {
    let Some(old) = pair.memory(of).get().get(place).copied() else {
        return;
    };
    let new = match input.below(4) {
        0 => old.wrapping_add(1),
        1 => old.wrapping_sub(1),
        2 => old.wrapping_add(input.number()),
        _ => input.number(),
    };
    pair.change(|memory| of(memory).get_mut()[place] = new);
}

/// A span laid over another.
fn overlay(input: &mut Input<'_>, pair: &mut Pair) {
    let [from, to] = [(); 2].map(|()| input.below(POSITIONS) * STREAMS + input.below(STREAMS));
    pair.change(|memory| {
        let directory = memory.directory.get_mut();
        if 2 * from.max(to) + 1 < directory.len() {
            directory.copy_within(2 * from..2 * from + 2, 2 * to);
        }
    });
}

/// A slice made shorter or a little longer.
fn length(input: &mut Input<'_>, pair: &mut Pair) {
    match input.below(6) {
        0 => resize(input, pair, |memory| &mut memory.bytes),
        1 => resize(input, pair, |memory| &mut memory.text),
        2 => resize(input, pair, |memory| &mut memory.names),
        3 => resize(input, pair, |memory| &mut memory.rows),
        4 => resize(input, pair, |memory| &mut memory.directory),
        _ => resize(input, pair, |memory| &mut memory.cursors),
    }
}

fn resize<T: Copy + From<u8>>(input: &mut Input<'_>, pair: &mut Pair, of: Of<T>) {
    let length = pair.memory(of).get().len();
    let changed = match input.below(3) {
        0 => length + input.below(8),
        1 => length.saturating_sub(input.below(16)),
        _ => input.place(length),
    };
    pair.change(|memory| of(memory).resize(changed, T::from(3)));
}
