//! Token streams put down by hand, token after token, without asking whether they are right.

use super::random::Random;
use crate::directory::{place, Stream, DIRECTORY, SPANS};

/// A block as the calls are lent it.
#[derive(Clone, Debug, PartialEq, Eq)]
pub struct Packed {
    pub bytes: Vec<u8>,
    pub directory: Vec<u32>,
    pub count: u32,
}

#[derive(Clone)]
pub struct Script {
    streams: Vec<Vec<u8>>,
    position: usize,
    count: u32,
}

impl Default for Script {
    fn default() -> Self {
        Script {
            streams: vec![Vec::new(); SPANS],
            position: 0,
            count: 0,
        }
    }
}

impl Script {
    pub fn new() -> Script {
        Script::default()
    }

    /// Bytes at the end of any stream.
    pub fn put(mut self, position: usize, stream: Stream, bytes: &[u8]) -> Script {
        self.streams[place(position, stream)].extend_from_slice(bytes);
        self
    }

    /// The type of the next position, without a value.
    pub fn kind(mut self, number: u8) -> Script {
        self.position += 1;
        let position = self.position;
        self.put(position, Stream::Type, &[number])
    }

    /// A name's beginning without a distance.
    pub fn lead(mut self, number: u8) -> Script {
        self.position = 0;
        self.count += 1;
        self.put(0, Stream::Type, &[number])
    }

    pub fn dup(self, distance: u32) -> Script {
        self.lead(5).put(0, Stream::Dup, &distance.to_le_bytes())
    }

    pub fn diff(self, distance: u32) -> Script {
        self.lead(6).put(0, Stream::Diff, &distance.to_le_bytes())
    }

    pub fn string(self, text: &[u8]) -> Script {
        let script = self.kind(1).value(Stream::String, text);
        script.value(Stream::String, &[0])
    }

    pub fn char(self, byte: u8) -> Script {
        self.kind(2).value(Stream::Char, &[byte])
    }

    pub fn digits(self, number: u32) -> Script {
        self.kind(7).value(Stream::Digits, &number.to_le_bytes())
    }

    pub fn digits0(self, number: u32, width: u8) -> Script {
        let script = self.kind(4).value(Stream::Digits0, &number.to_le_bytes());
        script.value(Stream::Dzlen, &[width])
    }

    pub fn ddelta(self, delta: u8) -> Script {
        self.kind(11).value(Stream::Ddelta, &[delta])
    }

    pub fn ddelta0(self, delta: u8) -> Script {
        self.kind(12).value(Stream::Ddelta0, &[delta])
    }

    pub fn matched(self) -> Script {
        self.kind(13)
    }

    pub fn end(self) -> Script {
        self.kind(14)
    }

    /// Bytes of a value at the position of the last type.
    pub fn value(self, stream: Stream, bytes: &[u8]) -> Script {
        let position = self.position;
        self.put(position, stream, bytes)
    }

    /// Spans in directory order with no gaps, as the writing rule has them.
    pub fn packed(&self) -> Packed {
        let mut packed = self.empty();
        for place in 0..SPANS {
            packed.append(place, &self.streams[place]);
        }
        packed
    }

    /// Spans in any order, with gaps, some lying over others.
    pub fn scattered(&self, random: &mut Random) -> Packed {
        let mut packed = self.empty();
        let first = random.below(SPANS);
        // 7 shares no factor with 1,290, so every place comes once.
        for turn in 0..SPANS {
            let place = (first + 7 * turn) % SPANS;
            packed.place(place, &self.streams[place], random);
        }
        packed
    }

    fn empty(&self) -> Packed {
        Packed {
            bytes: Vec::new(),
            directory: vec![0; DIRECTORY],
            count: self.count,
        }
    }
}

impl Packed {
    fn append(&mut self, place: usize, stream: &[u8]) {
        let start = self.bytes.len();
        self.bytes.extend_from_slice(stream);
        self.bound(place, start, stream.len());
    }

    fn place(&mut self, place: usize, stream: &[u8], random: &mut Random) {
        if stream.is_empty() {
            let start = random.below(self.bytes.len() + 1);
            return self.bound(place, start, 0);
        }
        if random.percent(10) {
            self.bytes.push(random.byte());
        }
        let wanted = random.percent(40);
        match self.find(stream).filter(|_| wanted) {
            Some(start) => self.bound(place, start, stream.len()),
            None => self.append(place, stream),
        }
    }

    /// Where the same bytes already lie; only a block's beginning is searched.
    fn find(&self, stream: &[u8]) -> Option<usize> {
        let searched = &self.bytes[..self.bytes.len().min(200)];
        let mut windows = searched.windows(stream.len());
        windows.position(|window| window == stream)
    }

    fn bound(&mut self, place: usize, start: usize, length: usize) {
        self.directory[2 * place] = start as u32;
        self.directory[2 * place + 1] = (start + length) as u32;
    }
}
