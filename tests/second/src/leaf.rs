//! The leaf functions as the C side shapes them: buffers, places and one number back.

use crate::class;
use crate::digits;
use crate::directory::{Block, Spans};
use crate::listing::listing;
use crate::span::Span;

/// "Short", "doesn't fit" or "no room".
pub const NONE: u64 = u64::MAX;

/// What every listing has room in.
pub const LISTING_ROOM: usize = 131_072;

/// Widths that a row can keep.
const MOST_WIDTH: u32 = 254;

pub trait Leaves {
    fn print(&self, number: u32, buffer: &mut [u8], at: usize) -> u64;
    fn print_padded(&self, number: u32, width: u32, buffer: &mut [u8], at: usize) -> u64;
    fn fits(&self, number: u32, width: u32) -> u32;
    fn class(&self, byte: u8) -> u32;
    fn byte(&self, bytes: &[u8], at: u32, end: u32) -> u64;
    fn four(&self, bytes: &[u8], at: u32, end: u32, next: &mut [u32; 1]) -> u64;
    fn text(&self, bytes: &[u8], at: u32, end: u32) -> u64;
    fn judge(&self, bytes: &[u8], directory: &[u32], cursors: &[u32]) -> u32;
}

/// The second program's own leaves.
pub struct SecondLeaves;

impl Leaves for SecondLeaves {
    fn print(&self, number: u32, buffer: &mut [u8], at: usize) -> u64 {
        put(&digits::print(number), buffer, at)
    }

    fn print_padded(&self, number: u32, width: u32, buffer: &mut [u8], at: usize) -> u64 {
        if width > MOST_WIDTH {
            return NONE;
        }
        let printed = digits::print_padded(number, width);
        printed.map_or(NONE, |printed| put(&printed, buffer, at))
    }

    fn fits(&self, number: u32, width: u32) -> u32 {
        u32::from(digits::fits(number, width))
    }

    fn class(&self, byte: u8) -> u32 {
        class::number(byte)
    }

    fn byte(&self, bytes: &[u8], at: u32, end: u32) -> u64 {
        let read = |mut span: Span<'_>| {
            let byte = span.byte()?;
            Some(u64::from(span.cursor()) << 32 | u64::from(byte))
        };
        Span::new(bytes, at, end).and_then(read).unwrap_or(NONE)
    }

    fn four(&self, bytes: &[u8], at: u32, end: u32, next: &mut [u32; 1]) -> u64 {
        let read = |mut span: Span<'_>| {
            let four = span.four()?;
            *next = [span.cursor()];
            Some(u64::from(four))
        };
        Span::new(bytes, at, end).and_then(read).unwrap_or(NONE)
    }

    fn text(&self, bytes: &[u8], at: u32, end: u32) -> u64 {
        let read = |mut span: Span<'_>| {
            let text = span.text()?;
            Some(u64::from(at) + text.len() as u64)
        };
        Span::new(bytes, at, end).and_then(read).unwrap_or(NONE)
    }

    fn judge(&self, bytes: &[u8], directory: &[u32], cursors: &[u32]) -> u32 {
        let block = Block { bytes, directory };
        let judged = block.judge(cursors.len());
        let judged = judged.and_then(|()| Spans::new(block, cursors));
        judged.err().map_or(0, |reason| reason.number())
    }
}

/// The listing of an input, at the front of a buffer that has room for every listing.
pub fn list(input: &[u8], out: &mut [u8]) -> u64 {
    if out.len() < LISTING_ROOM {
        return NONE;
    }
    put(&listing(input), out, 0)
}

fn put(printed: &[u8], buffer: &mut [u8], at: usize) -> u64 {
    let end = at.checked_add(printed.len());
    match end.and_then(|end| buffer.get_mut(at..end)) {
        Some(room) => {
            room.copy_from_slice(printed);
            printed.len() as u64
        }
        None => NONE,
    }
}
