//! Read names of a CRAM 4 draft block, read, written and checked by `libaqsurvel.a`; an adaptive
//! model's table, replayed.
//!
//! A [`Block`] owns token streams, a [`Scoreboard`] reads one and answers claims about its
//! names; a [`Model`] replays a trace of symbols. Every call comes back with its answer or with a
//! [`Refusal`]; none panics on bad input.
//!
//! ```
//! use aqsurvel::{Block, Read, Room, Scoreboard, Verdict};
//!
//! let block = Block::write(b"run7:0098\nrun7:0099\n")?;
//! let mut board = Scoreboard::open(&block, Room::for_count(block.count()))?;
//! assert_eq!(board.read_all()?, 2);
//! assert_eq!(board.claim(1, b"run7:0099")?, Verdict::Confirmed);
//! # Ok::<(), aqsurvel::Refusal>(())
//! ```

#![deny(unsafe_code)]

mod answer;
mod boundary;
mod room;

pub use answer::{Read, Reason, Refusal, Verdict};
pub use room::{bytes_for, Room};

use room::FIVE;

/// Numbers of a directory: a start and an end for each of the 1,290 spans.
pub const DIRECTORY: usize = 2580;
/// Numbers of a cursor table.
pub const CURSORS: usize = 1290;
pub const MOST_NAMES: u32 = 65_536;
/// Bytes of a name.
pub const MOST_BYTES: usize = 254;
/// Rows of a name.
pub const MOST_ROWS: usize = 127;
/// Places of a model.
pub const PLACES: usize = 256;

/// Token streams with their directory and the count of their names.
#[derive(Clone, Debug, PartialEq, Eq)]
pub struct Block {
    bytes: Vec<u8>,
    directory: Vec<u32>,
    count: u32,
}

impl Block {
    /// Streams as they came from elsewhere; opening judges them.
    pub fn new(bytes: Vec<u8>, directory: Vec<u32>, count: u32) -> Block {
        Block {
            bytes,
            directory,
            count,
        }
    }

    /// The streams of names that are each ended by byte 10. A run of the letters A to Z and a to z is
    /// one token of a name, as is a run of up to nine digits, and every other byte; what is left
    /// behind 126 tokens is the last.
    pub fn write(input: &[u8]) -> Result<Block, Refusal> {
        Block::write_within(input, bytes_for(input.len()))
    }

    /// The same with no more than so many bytes.
    pub fn write_within(input: &[u8], room: usize) -> Result<Block, Refusal> {
        let mut block = Block::new(vec![0; room], vec![0; DIRECTORY], 0);
        let mut totals = [0; 2];
        let answer = boundary::write(input, &mut block.directory, &mut block.bytes, &mut totals);
        let total = answer::value(answer)?;
        block.bytes.truncate(total as usize);
        block.count = totals[0];
        Ok(block)
    }

    pub fn bytes(&self) -> &[u8] {
        &self.bytes
    }

    pub fn directory(&self) -> &[u32] {
        &self.directory
    }

    pub fn count(&self) -> u32 {
        self.count
    }
}

/// What reading keeps, in the layout of the header.
struct Kept {
    cursors: Vec<u32>,
    text: Vec<u8>,
    names: Vec<u32>,
    rows: Vec<u32>,
    state: [u32; 4],
}

impl Kept {
    fn new(room: Room) -> Kept {
        Kept {
            cursors: vec![0; CURSORS],
            text: vec![0; room.text],
            names: vec![0; FIVE * room.names],
            rows: vec![0; FIVE * room.rows],
            state: [0; 4],
        }
    }
}

/// The names of one block, as far as they are read.
///
/// Its tables are written by the library alone, so no answer of it is refused 13.
pub struct Scoreboard<'a> {
    block: &'a Block,
    kept: Kept,
}

impl<'a> Scoreboard<'a> {
    pub fn open(block: &'a Block, room: Room) -> Result<Scoreboard<'a>, Refusal> {
        let mut kept = Kept::new(room);
        answer::value(boundary::open(block, &mut kept))?;
        Ok(Scoreboard { block, kept })
    }

    /// Opens again at the first name; what was read is forgotten.
    pub fn reopen(&mut self) -> Result<(), Refusal> {
        answer::value(boundary::open(self.block, &mut self.kept)).map(drop)
    }

    /// The next name. A refused read changes nothing and may be repeated.
    pub fn read(&mut self) -> Result<Read, Refusal> {
        answer::read(boundary::read(self.block, &mut self.kept))
    }

    /// All names from the first on, and how many there are. What was read before a refusal stays.
    pub fn read_all(&mut self) -> Result<u32, Refusal> {
        let answer = boundary::read_block(self.block, &mut self.kept);
        // A whole block answers "done" or a refusal, and no single name.
        let (Read::Done(kept) | Read::Kept(kept)) = answer::read(answer)?;
        Ok(kept)
    }

    /// Is this the name of that number, all of its bytes and nothing else?
    pub fn claim(&self, number: u32, claimed: &[u8]) -> Result<Verdict, Refusal> {
        answer::verdict(boundary::claim(number, claimed, &self.kept))
    }

    /// How many names are read.
    pub fn len(&self) -> u32 {
        self.kept.state[1]
    }

    pub fn is_empty(&self) -> bool {
        self.len() == 0
    }

    /// The name of that number, once it is read.
    pub fn name(&self, number: u32) -> Option<&[u8]> {
        let number = Some(number).filter(|number| *number < self.len())?;
        let entry = &self.kept.names[FIVE * number as usize..][..FIVE];
        Some(&self.kept.text[entry[0] as usize..][..entry[1] as usize])
    }

    /// The names read so far, in order.
    pub fn names(&self) -> impl Iterator<Item = &[u8]> {
        (0..self.len()).filter_map(|number| self.name(number))
    }
}

/// The table of an adaptive model, as it should stand after the symbols that the model saw.
#[derive(Clone, Debug)]
pub struct Model {
    symbols: [u32; PLACES],
    frequencies: [u32; PLACES],
    total: u32,
    size: usize,
}

impl Default for Model {
    fn default() -> Self {
        Model {
            symbols: [0; PLACES],
            frequencies: [0; PLACES],
            total: 0,
            size: 0,
        }
    }
}

impl Model {
    /// A table of so many symbols, started and taken through a trace. At a symbol outside it the
    /// table keeps what those before did; at a size that there isn't, it is as it was.
    pub fn replay(&mut self, size: u32, trace: &[u8]) -> Result<(), Refusal> {
        let answer = answer::value(boundary::model_replay(size, trace, self));
        match answer {
            Err(refusal) if refusal.reason == Reason::TableSize => {}
            _ => self.size = size as usize,
        }
        answer.map(drop)
    }

    /// Symbols with their frequencies, from place 0 on.
    pub fn table(&self) -> impl Iterator<Item = (u32, u32)> + '_ {
        let pairs = self.symbols.iter().zip(&self.frequencies);
        let pair = |(symbol, frequency): (&u32, &u32)| (*symbol, *frequency);
        pairs.take(self.size).map(pair)
    }

    /// The sum of the frequencies.
    pub fn total(&self) -> u32 {
        self.total
    }
}
