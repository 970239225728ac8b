//! The memory for one block of names, and each thing that is measured over it.

use crate::names::Names;
use crate::plain::{self, Verdict};
use crate::reference::Reference;
use second::boundary::Linked;
use second::calls::{Calls, Second};
use second::cases::script::{Packed, Script};
use second::directory::{Block, Stream, MOST_NAMES, STREAMS};
use second::kept::FIVE;
use second::memory::{self, Memory, Room};
use second::refusal::{unpack, DONE};
use std::hint::black_box;

/// What is measured, each once for every name.
#[derive(Clone, Copy, Debug, PartialEq, Eq, Hash)]
pub enum Call {
    WholeBlock,
    SingleReads,
    Claims,
    Writing(WritingRoom),
}

/// The bytes that writing is lent: as many as it fills, or as many as suffice for any names.
#[derive(Clone, Copy, Debug, PartialEq, Eq, Hash)]
pub enum WritingRoom {
    Exact,
    Ample,
}

pub const CALLS: [(&str, Call); 5] = [
    ("whole block", Call::WholeBlock),
    ("single reads", Call::SingleReads),
    ("claims", Call::Claims),
    ("writing, exact", Call::Writing(WritingRoom::Exact)),
    ("writing, ample", Call::Writing(WritingRoom::Ample)),
];

/// Whose call it is. The two plain loops stand beside single reads.
#[derive(Clone, Copy, Debug, PartialEq, Eq, Hash)]
pub enum Holder {
    Library,
    Second,
    Plain,
    PlainWithWayOut,
    Tok3,
}

pub const HOLDERS: [(&str, Holder); 5] = [
    ("library", Holder::Library),
    ("second", Holder::Second),
    ("plain", Holder::Plain),
    ("plain with a way out", Holder::PlainWithWayOut),
    ("tok3", Holder::Tok3),
];

pub fn by_word<T: Copy>(words: &[(&str, T)], word: &str) -> Option<T> {
    let found = words.iter().find(|(known, _)| *known == word);
    found.map(|(_, thing)| *thing)
}

/// Something with one block after the other, so that only one at a time takes memory, in each way
/// that its names are put.
pub fn each_block(
    ways: &[&Names],
    mut run: impl FnMut(&mut [Work]) -> Result<(), String>,
) -> Result<(), String> {
    for number in 0..ways[0].blocks.len() {
        let work = |names: &&Names| {
            let input = names.blocks[number].clone();
            Work::new(input, names.afresh).map_err(|(code, name)| {
                let line = number * MOST_NAMES as usize + name as usize + 1;
                format!("{}, line {line}: refused {code}", names.word)
            })
        };
        let works: Result<Vec<Work>, String> = ways.iter().map(work).collect();
        run(&mut works?)?;
    }
    Ok(())
}

pub struct Work {
    input: Vec<u8>,
    pub count: u32,
    names: Vec<(usize, usize)>,
    /// The block, and what reading it keeps.
    block: Memory,
    /// Writing goes to one of these and not into the block that is read.
    exact: Memory,
    ample: Memory,
    writing: memory::Call,
    codec: Option<Reference>,
    /// Whether names inside the block start afresh.
    afresh: bool,
}

/// A step with which claims go through the names out of order, and meet each once: both are prime,
/// and one isn't the count.
const fn stride(count: u32) -> u32 {
    match count {
        40_961 => 40_949,
        _ => 40_961,
    }
}

impl Work {
    /// A refusal's number and name where these names can't be written.
    fn new(input: Vec<u8>, afresh: Option<usize>) -> Result<Work, (u32, u32)> {
        let writing = memory::Call::Write {
            input: input.clone(),
        };
        let mut ample = Memory::to_write(6 * input.len(), 0);
        let plain = written(&mut ample, &writing)?;
        let (count, total) = (plain.count, plain.bytes.len());
        let block = match afresh {
            Some(every) => started_afresh(&mut ample, &input, every)?,
            None => plain,
        };
        let mut work = Work {
            block: Memory::new(&block, room(&input, count as usize)),
            names: places(&input),
            codec: Reference::new(&input),
            input,
            count,
            exact: Memory::to_write(total, 0),
            ample,
            writing,
            afresh: afresh.is_some(),
        };
        // Claims and the count of tokens look at what is kept.
        work.run(Holder::Library, Call::WholeBlock);
        assert!(work.block.text.get() == work.input, "these are the names");
        Ok(work)
    }

    /// Whole-block reading stands against the codec's decoding and writing against its encoding,
    /// once, since it makes its own room. Only reading sees that names start afresh.
    pub fn has(&self, holder: Holder, call: Call) -> bool {
        if self.afresh {
            let reads = [Call::WholeBlock, Call::SingleReads].contains(&call);
            return reads && [Holder::Library, Holder::Second].contains(&holder);
        }
        match holder {
            Holder::Library | Holder::Second => true,
            Holder::Plain | Holder::PlainWithWayOut => call == Call::SingleReads,
            Holder::Tok3 => {
                let there = [Call::WholeBlock, Call::Writing(WritingRoom::Ample)];
                self.codec.is_some() && there.contains(&call)
            }
        }
    }

    /// Runs what `has` says is there.
    pub fn run(&mut self, holder: Holder, call: Call) {
        match holder {
            Holder::Library => self.call(&Linked, call),
            Holder::Second => self.call(&Second, call),
            Holder::Plain => self.judge(plain::without_way_out),
            Holder::PlainWithWayOut => self.judge(plain::with_way_out),
            Holder::Tok3 => {
                let codec = self.codec.as_mut().expect("the codec is here");
                match call {
                    Call::WholeBlock => codec.decode(),
                    _ => codec.encode(),
                }
            }
        }
    }

    fn call(&mut self, calls: &dyn Calls, call: Call) {
        match call {
            Call::WholeBlock => self.read_block(calls),
            Call::SingleReads => self.single_reads(calls),
            Call::Claims => self.claims(calls),
            Call::Writing(room) => self.write(calls, room),
        }
    }

    fn read_block(&mut self, calls: &dyn Calls) {
        let count = self.count;
        let answer = self.block.run(calls, &memory::Call::ReadBlock { count });
        assert_eq!(unpack(answer), (DONE, count));
    }

    fn single_reads(&mut self, calls: &dyn Calls) {
        let (block, cursors, mut tables) = self.block.to_read();
        let opened = calls.open(block, self.count, cursors, tables.state);
        assert_eq!(unpack(opened), (0, 0));
        while unpack(calls.read(block, cursors, tables.lend())).0 == 0 {}
        assert_eq!(tables.state[1], self.count);
    }

    fn claims(&self, calls: &dyn Calls) {
        let kept = self.block.to_claim();
        let stride = stride(self.count);
        for turn in 0..self.count {
            let number = turn.wrapping_mul(stride) % self.count;
            let (start, end) = self.names[number as usize];
            let answer = calls.claim(number, &self.input[start..end], kept);
            assert_eq!(unpack(answer), (0, 1));
        }
    }

    fn write(&mut self, calls: &dyn Calls, room: WritingRoom) {
        let written = match room {
            WritingRoom::Exact => &mut self.exact,
            WritingRoom::Ample => &mut self.ample,
        };
        let answer = written.run(calls, &self.writing);
        assert_eq!(unpack(answer), (0, self.block.bytes.get().len() as u32));
    }

    /// What a single read judges, once for each name, which the compiler may not fold into one.
    fn judge(&self, judge: fn(usize, &[u32], &[u32]) -> Verdict) {
        let block = &self.block;
        for _ in 0..self.count {
            let bytes = black_box(block.bytes.get().len());
            let (directory, cursors) = black_box((block.directory.get(), block.cursors.get()));
            let verdict = black_box(judge(bytes, directory, cursors));
            assert_eq!(verdict, Verdict::Inside);
        }
    }

    pub fn tokens(&self) -> u32 {
        self.block.state_numbers()[3]
    }

    /// The block that is read.
    pub fn block(&self) -> Block<'_> {
        Block {
            bytes: self.block.bytes.get(),
            directory: self.block.directory.get(),
        }
    }
}

/// What the library writes, or its refusal's number and name.
fn written(lent: &mut Memory, writing: &memory::Call) -> Result<Packed, (u32, u32)> {
    let (code, value) = unpack(lent.run(&Linked, writing));
    if code != 0 {
        return Err((code, value));
    }
    let [count, total] = lent.total_numbers();
    Ok(Packed {
        bytes: lent.bytes.get()[..total as usize].to_vec(),
        directory: lent.directory.get().to_vec(),
        count,
    })
}

/// A block in which every so many-th name starts afresh, which writing never makes: so many names
/// are written at a time, and these blocks' streams put one behind the other, span by span.
fn started_afresh(lent: &mut Memory, input: &[u8], every: usize) -> Result<Packed, (u32, u32)> {
    let names: Vec<&[u8]> = input.split_inclusive(|byte| *byte == b'\n').collect();
    let mut script = Script::new();
    for names in names.chunks(every) {
        let input = names.concat();
        let block = written(lent, &memory::Call::Write { input })?;
        for (place, span) in block.directory.chunks_exact(2).enumerate() {
            let (position, stream) = (place / STREAMS, Stream::ALL[place % STREAMS]);
            let bytes = &block.bytes[span[0] as usize..span[1] as usize];
            script = script.put(position, stream, bytes);
        }
    }
    Ok(Packed {
        count: names.len() as u32,
        ..script.packed()
    })
}

/// Just the text and the entries; a row for every byte, since each token prints one at least.
fn room(input: &[u8], count: usize) -> Room {
    Room {
        text: input.len(),
        names: FIVE * count,
        rows: FIVE * (input.len() - count),
    }
}

/// Where each name starts and ends in the input.
fn places(input: &[u8]) -> Vec<(usize, usize)> {
    let mut start = 0;
    let place = |name: &[u8]| {
        let from = start;
        start += name.len();
        (from, start - 1)
    };
    input
        .split_inclusive(|byte| *byte == b'\n')
        .map(place)
        .collect()
}
