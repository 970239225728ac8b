//! How one name is read from the spans.

use crate::class;
use crate::directory::{Spans, Stream, LAST_POSITION, MOST_BYTES};
use crate::distance::{self, Lead};
use crate::kept::{Earlier, Tables};
use crate::refusal::Reason;
use crate::row::Row;
use crate::token::{add, Padded, Token, Type};

/// A name just read, not yet kept. Its rows' text starts count from the name's first byte.
#[derive(Debug, PartialEq, Eq)]
pub struct NewName {
    pub text: Vec<u8>,
    pub distance: u32,
    pub rows: NewRows,
}

#[derive(Debug, PartialEq, Eq)]
pub enum NewRows {
    /// DUP has the rows of its earlier name.
    Shared {
        first: u32,
        count: u32,
    },
    Added(Vec<Row>),
}

impl NewName {
    pub fn added(&self) -> &[Row] {
        match &self.rows {
            NewRows::Shared { .. } => &[],
            NewRows::Added(rows) => rows,
        }
    }
}

/// Rule 1: the type at position 0 and the distance.
pub fn head(spans: &mut Spans<'_>) -> Result<(Lead, u32), Reason> {
    let lead = Lead::of_type(spans.byte(0, Stream::Type)?)?;
    let distance = match lead {
        Lead::Dup => spans.four(0, Stream::Dup)?,
        Lead::Diff => spans.four(0, Stream::Diff)?,
    };
    Ok((lead, distance))
}

/// Rules 1 to 4, with 2 to 8 and the 13 that comes after 4.
pub fn read(spans: &mut Spans<'_>, number: u32, tables: &Tables<'_>) -> Result<NewName, Reason> {
    let (lead, distance) = head(spans)?;
    let earlier = match distance::earlier(number, lead, distance)? {
        Some(earlier) => Some(tables.earlier(earlier)?),
        None => None,
    };
    match (lead, earlier) {
        (Lead::Dup, Some(earlier)) => Ok(copy(&earlier, distance)),
        (_, earlier) => tokens(spans, distance, earlier.as_ref()),
    }
}

/// Rule 3: the text is copied and not judged again.
fn copy(earlier: &Earlier<'_>, distance: u32) -> NewName {
    NewName {
        text: earlier.text.to_vec(),
        distance,
        rows: NewRows::Shared {
            first: earlier.entry.first_row,
            count: earlier.entry.row_count,
        },
    }
}

/// Rule 4.
fn tokens(
    spans: &mut Spans<'_>,
    distance: u32,
    earlier: Option<&Earlier<'_>>,
) -> Result<NewName, Reason> {
    let mut text = Vec::new();
    let mut rows = Vec::new();
    for position in 1.. {
        let kind = Type::of(spans.byte(position, Stream::Type)?)?;
        if kind == Type::End {
            break;
        }
        if position == LAST_POSITION {
            return Err(Reason::Tokens);
        }
        let row = earlier.and_then(|name| name.rows.get(position - 1).copied());
        let token = resolve(kind, spans, position, row)?;
        rows.push(append(&mut text, &token)?);
    }
    if text.is_empty() {
        return Err(Reason::Bytes);
    }
    Ok(NewName {
        text,
        distance,
        rows: NewRows::Added(rows),
    })
}

/// 5 before any value is read, then 2, then 6.
fn resolve<'a, 'bytes: 'a>(
    kind: Type,
    spans: &mut Spans<'bytes>,
    position: usize,
    row: Option<Token<'a>>,
) -> Result<Token<'a>, Reason> {
    match (kind, row) {
        (Type::String, _) => Ok(Token::String(spans.text(position)?)),
        (Type::Char, _) => Ok(Token::Char(spans.byte(position, Stream::Char)?)),
        (Type::Digits, _) => Ok(Token::Digits(spans.four(position, Stream::Digits)?)),
        (Type::Digits0, _) => {
            let number = spans.four(position, Stream::Digits0)?;
            let width = spans.byte(position, Stream::Dzlen)?;
            Ok(Token::Digits0(Padded::new(number, u32::from(width))?))
        }
        (Type::Ddelta, Some(Token::Digits(number))) => {
            let delta = spans.byte(position, Stream::Ddelta)?;
            Ok(Token::Digits(add(number, delta)?))
        }
        (Type::Ddelta0, Some(Token::Digits0(padded))) => {
            let delta = spans.byte(position, Stream::Ddelta0)?;
            let sum = add(padded.number(), delta)?;
            Ok(Token::Digits0(Padded::new(sum, padded.width())?))
        }
        (Type::Match, Some(row)) => Ok(row),
        _ => Err(Reason::NoRow),
    }
}

/// Refusal 8 for one token, or its row.
fn append(text: &mut Vec<u8>, token: &Token<'_>) -> Result<Row, Reason> {
    let printed = token.printed();
    if text.len() + printed.len() > MOST_BYTES || !class::all_allowed(&printed) {
        return Err(Reason::Bytes);
    }
    let row = Row::of(token, text.len() as u32, printed.len() as u32);
    text.extend_from_slice(&printed);
    Ok(row)
}
