//! The block in memory: its bytes, its directory and the readers of its spans.

use crate::refusal::Reason;
use crate::span::Span;

/// Positions 0 to 128.
pub const POSITIONS: usize = 129;
pub const STREAMS: usize = 10;
pub const SPANS: usize = POSITIONS * STREAMS;
/// A start and an end for each span.
pub const DIRECTORY: usize = 2 * SPANS;
/// The last position a token may stand at; only END may stand there.
pub const LAST_POSITION: usize = 128;
pub const MOST_NAMES: u32 = 65_536;
/// The bytes of a name that SAM allows at most.
pub const MOST_BYTES: usize = 254;
/// Every position but the last can add a row.
pub const MOST_ROWS: u32 = 127;

/// The ten spans of a position, in directory order.
#[derive(Clone, Copy, Debug, PartialEq, Eq)]
pub enum Stream {
    Type,
    String,
    Char,
    Digits0,
    Dzlen,
    Dup,
    Diff,
    Digits,
    Ddelta,
    Ddelta0,
}

impl Stream {
    pub const ALL: [Stream; STREAMS] = [
        Stream::Type,
        Stream::String,
        Stream::Char,
        Stream::Digits0,
        Stream::Dzlen,
        Stream::Dup,
        Stream::Diff,
        Stream::Digits,
        Stream::Ddelta,
        Stream::Ddelta0,
    ];
}

/// Place of a span in the directory and of its cursor in the cursor table.
pub fn place(position: usize, stream: Stream) -> usize {
    position * STREAMS + stream as usize
}

#[derive(Clone, Copy, Debug)]
pub struct Block<'a> {
    pub bytes: &'a [u8],
    pub directory: &'a [u32],
}

impl Block<'_> {
    /// Refusal 1, over all spans whether a name uses them or not.
    pub fn judge(&self, cursors: usize) -> Result<(), Reason> {
        let lengths = self.directory.len() == DIRECTORY && cursors == SPANS;
        let inside = |(start, end): (u32, u32)| start <= end && end as usize <= self.bytes.len();
        if lengths && self.bounds().all(inside) {
            Ok(())
        } else {
            Err(Reason::Directory)
        }
    }

    pub fn bounds(&self) -> impl Iterator<Item = (u32, u32)> + '_ {
        self.directory
            .chunks_exact(2)
            .map(|pair| (pair[0], pair[1]))
    }
}

/// All spans of a block, each with the bytes left to it.
pub struct Spans<'a> {
    all: Vec<Span<'a>>,
}

impl<'a> Spans<'a> {
    /// Refusal 13 for a cursor outside its span; a cursor at its end has nothing left.
    pub fn new(block: Block<'a>, cursors: &[u32]) -> Result<Self, Reason> {
        let mut all = Vec::with_capacity(SPANS);
        for ((start, end), cursor) in block.bounds().zip(cursors) {
            let span = Span::new(block.bytes, *cursor, end);
            all.push(span.filter(|_| start <= *cursor).ok_or(Reason::Outside)?);
        }
        Ok(Spans { all })
    }

    pub fn byte(&mut self, position: usize, stream: Stream) -> Result<u8, Reason> {
        self.at(position, stream).byte().ok_or(Reason::Short)
    }

    pub fn four(&mut self, position: usize, stream: Stream) -> Result<u32, Reason> {
        self.at(position, stream).four().ok_or(Reason::Short)
    }

    pub fn text(&mut self, position: usize) -> Result<&'a [u8], Reason> {
        let span = self.at(position, Stream::String);
        span.text().ok_or(Reason::Short)
    }

    pub fn all_read(&self) -> bool {
        self.all.iter().all(Span::is_read)
    }

    pub fn store(&self, cursors: &mut [u32]) {
        for (cursor, span) in cursors.iter_mut().zip(&self.all) {
            *cursor = span.cursor();
        }
    }

    fn at(&mut self, position: usize, stream: Stream) -> &mut Span<'a> {
        &mut self.all[place(position, stream)]
    }
}
