//! The memory that calls are lent, owned in one place so that it can be copied and compared.

#[cfg(feature = "linked")]
use crate::boundary::Linked;
use crate::calls::{Calls, Second};
use crate::cases::script::Packed;
use crate::claim::KeptText;
#[cfg(feature = "linked")]
use crate::compare::{walk, Case};
use crate::directory::{Block, DIRECTORY, MOST_BYTES, MOST_ROWS, SPANS, STREAMS};
use crate::kept::{Entry, Tables, FIVE};
use crate::lent::Lent;
use crate::model::{Model, PLACES};
use crate::refusal::unpack;
use std::fmt;

#[derive(Clone, PartialEq, Eq)]
pub struct Memory {
    pub bytes: Lent<u8>,
    pub directory: Lent<u32>,
    pub cursors: Lent<u32>,
    pub text: Lent<u8>,
    pub names: Lent<u32>,
    pub rows: Lent<u32>,
    pub state: Lent<u32>,
    pub totals: Lent<u32>,
    pub symbols: Lent<u32>,
    pub frequencies: Lent<u32>,
    pub total: Lent<u32>,
}

/// Room for kept names: bytes of text, and numbers of the two tables.
#[derive(Clone, Copy, Debug)]
pub struct Room {
    pub text: usize,
    pub names: usize,
    pub rows: usize,
}

impl Room {
    /// More than any block of so many names can need.
    pub fn ample(names: usize) -> Room {
        Room {
            text: (MOST_BYTES + 1) * names,
            names: FIVE * names,
            rows: FIVE * MOST_ROWS as usize * names,
        }
    }
}

/// One call with the arguments that aren't memory.
#[derive(Clone, PartialEq, Eq)]
pub enum Call {
    Open { count: u32 },
    Read,
    ReadBlock { count: u32 },
    Claim { number: u32, claimed: Vec<u8> },
    Write { input: Vec<u8> },
    ModelReplay { size: u32, trace: Vec<u8> },
}

impl Call {
    pub fn word(&self) -> &'static str {
        match self {
            Call::Open { .. } => "open",
            Call::Read => "read",
            Call::ReadBlock { .. } => "read_block",
            Call::Claim { .. } => "claim",
            Call::Write { .. } => "write",
            Call::ModelReplay { .. } => "model_replay",
        }
    }
}

impl fmt::Debug for Call {
    fn fmt(&self, out: &mut fmt::Formatter<'_>) -> fmt::Result {
        match self {
            Call::Read => write!(out, "read"),
            Call::Open { count } | Call::ReadBlock { count } => {
                write!(out, "{} count {count}", self.word())
            }
            Call::Claim { number, claimed } => {
                write!(out, "claim {number} \"{}\"", claimed.escape_ascii())
            }
            Call::Write { input } => {
                let first = start(input, 400);
                write!(
                    out,
                    "write {} bytes \"{}\"",
                    input.len(),
                    first.escape_ascii()
                )
            }
            Call::ModelReplay { size, trace } => {
                let first = start(trace, 400);
                write!(out, "model_replay size {size}, {} symbols ", trace.len())?;
                write!(out, "{first:?}")
            }
        }
    }
}

impl Memory {
    /// Nothing opened yet; the state and the cursors hold what no opening leaves.
    pub fn new(block: &Packed, room: Room) -> Memory {
        let guard = 0xA5A5_A5A5;
        Memory {
            bytes: Lent::new(&block.bytes, 0xA5),
            directory: Lent::new(&block.directory, guard),
            cursors: Lent::new(&[0x5EED; SPANS], guard),
            text: Lent::new(&vec![0xEE; room.text], 0xA5),
            names: Lent::new(&vec![0xEEEE; room.names], guard),
            rows: Lent::new(&vec![0xEEEE; room.rows], guard),
            state: Lent::new(&[7, 7, 7, 7], guard),
            totals: Lent::new(&[7, 7], guard),
            symbols: Lent::new(&[0xEEEE; PLACES], guard),
            frequencies: Lent::new(&[0xEEEE; PLACES], guard),
            total: Lent::new(&[7], guard),
        }
    }

    /// Room to write into, and to read back from, so many names.
    pub fn to_write(bytes: usize, names: usize) -> Memory {
        let block = Packed {
            bytes: vec![0xEE; bytes],
            directory: vec![0xEEEE; DIRECTORY],
            count: 0,
        };
        Memory::new(&block, Room::ample(names))
    }

    pub fn run(&mut self, calls: &dyn Calls, call: &Call) -> u64 {
        match call {
            Call::Claim { number, claimed } => calls.claim(*number, claimed, self.to_claim()),
            Call::Write { input } => calls.write(
                input,
                self.directory.get_mut(),
                self.bytes.get_mut(),
                array_mut(&mut self.totals),
            ),
            Call::ModelReplay { size, trace } => calls.model_replay(*size, trace, self.to_replay()),
            Call::Open { .. } | Call::Read | Call::ReadBlock { .. } => self.run_read(calls, call),
        }
    }

    /// Code and value of the second program. With the library linked, it is asked on a copy
    /// of the same memory and must say and leave the same.
    pub fn ask(&mut self, call: &Call) -> (u32, u32) {
        #[cfg(feature = "linked")]
        self.assert_linked_alike(call);
        unpack(self.run(&Second, call))
    }

    #[cfg(feature = "linked")]
    fn assert_linked_alike(&self, call: &Call) {
        let case = Case {
            memory: self.clone(),
            calls: vec![call.clone()],
        };
        let walked = walk(&case, [&Second, &Linked], |_, _, _| Ok(()));
        walked.unwrap_or_else(|found| panic!("{found}"));
    }

    fn run_read(&mut self, calls: &dyn Calls, call: &Call) -> u64 {
        let (block, cursors, tables) = self.to_read();
        match call {
            Call::Open { count } => calls.open(block, *count, cursors, tables.state),
            Call::ReadBlock { count } => calls.read_block(block, *count, cursors, tables),
            _ => calls.read(block, cursors, tables),
        }
    }

    /// What a read is lent.
    pub fn to_read(&mut self) -> (Block<'_>, &mut [u32], Tables<'_>) {
        let block = Block {
            bytes: self.bytes.get(),
            directory: self.directory.get(),
        };
        let tables = Tables {
            text: self.text.get_mut(),
            names: self.names.get_mut(),
            rows: self.rows.get_mut(),
            state: array_mut(&mut self.state),
        };
        (block, self.cursors.get_mut(), tables)
    }

    /// What a claim is lent.
    pub fn to_claim(&self) -> KeptText<'_> {
        KeptText {
            text: self.text.get(),
            names: self.names.get(),
            state: array(&self.state),
        }
    }

    /// What a replay is lent.
    pub fn to_replay(&mut self) -> Model<'_> {
        Model {
            symbols: array_mut(&mut self.symbols),
            frequencies: array_mut(&mut self.frequencies),
            total: array_mut(&mut self.total),
        }
    }

    pub fn state_numbers(&self) -> [u32; 4] {
        *array(&self.state)
    }

    pub fn total_numbers(&self) -> [u32; 2] {
        *array(&self.totals)
    }

    pub fn entry(&self, number: u32) -> Entry {
        Entry::of(self.names.get(), number)
    }

    pub fn row(&self, number: u32) -> &[u32] {
        let start = number as usize * FIVE;
        &self.rows.get()[start..start + FIVE]
    }

    /// The texts of the kept names, after honest reads.
    pub fn kept_names(&self) -> Vec<&[u8]> {
        let text = |number| {
            let entry = self.entry(number);
            let start = entry.text_start as usize;
            &self.text.get()[start..start + entry.text_length as usize]
        };
        (0..self.state_numbers()[1]).map(text).collect()
    }

    /// The same as text.
    pub fn kept_texts(&self) -> Vec<String> {
        let text = |name| String::from_utf8_lossy(name).into_owned();
        self.kept_names().into_iter().map(text).collect()
    }

    /// In words, the first place where two memories of the same shape differ.
    pub fn difference(&self, other: &Memory) -> Option<String> {
        let numbers = [
            ("cursors", &self.cursors, &other.cursors),
            ("names", &self.names, &other.names),
            ("rows", &self.rows, &other.rows),
            ("state", &self.state, &other.state),
            ("totals", &self.totals, &other.totals),
            ("directory", &self.directory, &other.directory),
            ("symbols", &self.symbols, &other.symbols),
            ("frequencies", &self.frequencies, &other.frequencies),
            ("total", &self.total, &other.total),
        ];
        let bytes = [
            ("text", &self.text, &other.text),
            ("bytes", &self.bytes, &other.bytes),
        ];
        first_difference(&numbers).or_else(|| first_difference(&bytes))
    }
}

fn first_difference<T>(parts: &[(&str, &Lent<T>, &Lent<T>)]) -> Option<String>
where
    T: Copy + PartialEq + fmt::Display,
{
    parts.iter().find_map(|(word, left, right)| {
        let (place, left, right) = left.difference(right)?;
        Some(format!("{word}[{place}] is {left} against {right}"))
    })
}

const NEVER_RESIZED: &str = "state, totals and a model keep their length";

fn array<const N: usize>(lent: &Lent<u32>) -> &[u32; N] {
    lent.get().first_chunk().expect(NEVER_RESIZED)
}

fn array_mut<const N: usize>(lent: &mut Lent<u32>) -> &mut [u32; N] {
    lent.get_mut().first_chunk_mut().expect(NEVER_RESIZED)
}

/// A short account, enough to build the case by hand.
impl fmt::Display for Memory {
    fn fmt(&self, out: &mut fmt::Formatter<'_>) -> fmt::Result {
        writeln!(out, "  state {:?}", self.state.get())?;
        writeln!(
            out,
            "  lengths: bytes {} directory {} cursors {} text {} names {} rows {}",
            self.bytes.get().len(),
            self.directory.get().len(),
            self.cursors.get().len(),
            self.text.get().len(),
            self.names.get().len(),
            self.rows.get().len()
        )?;
        writeln!(out, "  bytes {:02x?}", start(self.bytes.get(), 400))?;
        let used = self.state.get()[2] as usize;
        writeln!(
            out,
            "  text \"{}\"",
            start(self.text.get(), used.min(400)).escape_ascii()
        )?;
        writeln!(out, "  names {:?}", start(self.names.get(), 60))?;
        writeln!(out, "  rows {:?}", start(self.rows.get(), 120))?;
        writeln!(out, "  symbols {:?}", start(self.symbols.get(), 16))?;
        writeln!(out, "  frequencies {:?}", start(self.frequencies.get(), 16))?;
        writeln!(out, "  total {:?}", self.total.get())?;
        self.show_spans(out)
    }
}

fn start<T>(all: &[T], length: usize) -> &[T] {
    &all[..all.len().min(length)]
}

impl Memory {
    /// Spans that have bytes, or a cursor away from their bounds.
    fn show_spans(&self, out: &mut fmt::Formatter<'_>) -> fmt::Result {
        let bounds = self.directory.get().chunks_exact(2);
        let spans = bounds.zip(self.cursors.get()).enumerate();
        let told = |(_, (bounds, cursor)): &(usize, (&[u32], &u32))| {
            bounds[0] != bounds[1] || **cursor != bounds[0]
        };
        for (place, (bounds, cursor)) in spans.filter(told).take(40) {
            let (position, stream) = (place / STREAMS, place % STREAMS);
            let (from, to) = (bounds[0], bounds[1]);
            writeln!(
                out,
                "  span {position}.{stream} {from}..{to} cursor {cursor}"
            )?;
        }
        Ok(())
    }
}
