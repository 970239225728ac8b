//! Writing names into token streams.

use crate::class;
use crate::directory::{place, Stream, DIRECTORY, MOST_BYTES, MOST_NAMES, SPANS};
use crate::refusal::{Answer, Reason, Refusal};
use crate::split::{against, split, Item};
use crate::token::{Token, Type};

/// A name as it is written.
#[derive(Clone, Debug, PartialEq, Eq)]
pub enum Line<'a> {
    Dup(u32),
    Diff(u32, Vec<Item<'a>>),
}

/// The streams of a block, one for each span.
pub struct Streams {
    all: Vec<Vec<u8>>,
}

/// The names of the input, or 12, or the first bad name's 8.
pub fn names(input: &[u8]) -> Result<Vec<&[u8]>, Refusal> {
    let ended: Option<Vec<_>> = input
        .split_inclusive(|byte| *byte == b'\n')
        .map(|line| line.strip_suffix(b"\n"))
        .collect();
    let names = ended.ok_or(Reason::Count)?;
    if names.len() > MOST_NAMES as usize {
        return Err(Reason::Count.into());
    }
    match (0..).zip(&names).find(|(_, name)| !is_good(name)) {
        Some((number, _)) => Err(Reason::Bytes.at(number)),
        None => Ok(names),
    }
}

fn is_good(name: &[u8]) -> bool {
    (1..=MOST_BYTES).contains(&name.len()) && class::all_allowed(name)
}

/// Every name set against the one before it.
pub fn lines<'a>(names: &[&'a [u8]]) -> Vec<Line<'a>> {
    let mut lines = Vec::with_capacity(names.len());
    let mut before: Option<&[u8]> = None;
    let mut rows: Vec<Token<'a>> = Vec::new();
    for name in names {
        if before == Some(*name) {
            lines.push(Line::Dup(1));
            continue;
        }
        let tokens = split(name);
        let row = |place: usize| rows.get(place).copied();
        let items = (0..)
            .zip(&tokens)
            .map(|(place, token)| against(*token, row(place)));
        lines.push(Line::Diff(u32::from(before.is_some()), items.collect()));
        before = Some(name);
        rows = tokens;
    }
    lines
}

impl Streams {
    pub fn of(lines: &[Line<'_>]) -> Streams {
        let mut streams = Streams {
            all: vec![Vec::new(); SPANS],
        };
        for line in lines {
            match line {
                Line::Dup(distance) => streams.lead(5, Stream::Dup, *distance),
                Line::Diff(distance, items) => {
                    streams.lead(6, Stream::Diff, *distance);
                    streams.items(items);
                }
            }
        }
        streams
    }

    pub fn total(&self) -> usize {
        self.all.iter().map(Vec::len).sum()
    }

    fn lead(&mut self, number: u8, stream: Stream, distance: u32) {
        self.put(0, Stream::Type, &[number]);
        self.put(0, stream, &distance.to_le_bytes());
    }

    fn items(&mut self, items: &[Item<'_>]) {
        for (position, item) in (1..).zip(items) {
            self.put(position, Stream::Type, &[type_of(item) as u8]);
            match item {
                Item::New(token) => self.token(position, token),
                Item::Ddelta(delta) => self.put(position, Stream::Ddelta, &[*delta]),
                Item::Ddelta0(delta) => self.put(position, Stream::Ddelta0, &[*delta]),
                Item::Match => {}
            }
        }
        self.put(items.len() + 1, Stream::Type, &[Type::End as u8]);
    }

    fn token(&mut self, position: usize, token: &Token<'_>) {
        match token {
            Token::String(text) => {
                self.put(position, Stream::String, text);
                self.put(position, Stream::String, &[0]);
            }
            Token::Char(byte) => self.put(position, Stream::Char, &[*byte]),
            Token::Digits(number) => self.put(position, Stream::Digits, &number.to_le_bytes()),
            Token::Digits0(padded) => {
                self.put(position, Stream::Digits0, &padded.number().to_le_bytes());
                self.put(position, Stream::Dzlen, &[padded.width() as u8]);
            }
        }
    }

    fn put(&mut self, position: usize, stream: Stream, bytes: &[u8]) {
        self.all[place(position, stream)].extend_from_slice(bytes);
    }

    /// Spans one after another with no gaps; an empty one is at the running offset.
    fn lay_out(&self, directory: &mut [u32], bytes: &mut [u8]) {
        let mut end = 0;
        for (stream, span) in self.all.iter().zip(directory.chunks_exact_mut(2)) {
            let start = end;
            end += stream.len();
            bytes[start..end].copy_from_slice(stream);
            span.copy_from_slice(&[start as u32, end as u32]);
        }
    }
}

/// The type that stands in the stream for an item.
pub fn type_of(item: &Item<'_>) -> Type {
    match item {
        Item::New(token) => token.kind(),
        Item::Ddelta(_) => Type::Ddelta,
        Item::Ddelta0(_) => Type::Ddelta0,
        Item::Match => Type::Match,
    }
}

pub fn write(
    input: &[u8],
    directory: &mut [u32],
    bytes: &mut [u8],
    totals: &mut [u32; 2],
) -> Result<Answer, Refusal> {
    if directory.len() != DIRECTORY {
        return Err(Reason::Directory.into());
    }
    let names = names(input)?;
    let streams = Streams::of(&lines(&names));
    let total = streams.total();
    if total > bytes.len() {
        return Err(Reason::Room.into());
    }
    streams.lay_out(directory, bytes);
    *totals = [names.len() as u32, total as u32];
    Ok(Answer::Written {
        names: totals[0],
        bytes: totals[1],
    })
}
