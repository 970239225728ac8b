//! The listing program: names in, a line for each name out.

use crate::refusal::{Reason, Refusal};
use crate::split::Item;
use crate::token::{Token, Type};
use crate::writing::{lines, names, type_of, Line, Streams};

/// The most bytes the program reads.
pub const MOST_INPUT: usize = 4_096;

pub fn listing(input: &[u8]) -> Vec<u8> {
    match listed(input) {
        Ok(listed) => listed,
        Err(refusal) => refused(refusal).into_bytes(),
    }
}

/// More input than the limit is 9 whatever the bytes are, before 12 and 8.
fn listed(input: &[u8]) -> Result<Vec<u8>, Refusal> {
    if input.len() > MOST_INPUT {
        return Err(Reason::Room.into());
    }
    let names = names(input)?;
    let lines = lines(&names);
    let mut out = Vec::new();
    for (number, line) in lines.iter().enumerate() {
        out.extend(number.to_string().bytes());
        list(line, &mut out);
    }
    let total = Streams::of(&lines).total();
    out.extend(format!("{} names {total} bytes\n", names.len()).bytes());
    Ok(out)
}

fn list(line: &Line<'_>, out: &mut Vec<u8>) {
    match line {
        Line::Dup(distance) => out.extend(format!(" DUP {distance}\n").bytes()),
        Line::Diff(distance, items) => {
            out.extend(format!(" DIFF {distance}").bytes());
            for item in items {
                list_item(item, out);
            }
            out.extend(b" END\n");
        }
    }
}

fn list_item(item: &Item<'_>, out: &mut Vec<u8>) {
    out.push(b' ');
    out.extend(word(type_of(item)).bytes());
    let value = match item {
        Item::New(token) => shown(token),
        Item::Ddelta(delta) | Item::Ddelta0(delta) => delta.to_string().into_bytes(),
        Item::Match => return,
    };
    out.push(b' ');
    out.extend(value);
}

fn shown(token: &Token<'_>) -> Vec<u8> {
    match token {
        Token::Digits0(padded) => format!("{}/{}", padded.number(), padded.width()).into_bytes(),
        _ => token.printed().into_owned(),
    }
}

fn word(kind: Type) -> &'static str {
    match kind {
        Type::String => "STRING",
        Type::Char => "CHAR",
        Type::Digits0 => "DIGITS0",
        Type::Digits => "DIGITS",
        Type::Ddelta => "DDELTA",
        Type::Ddelta0 => "DDELTA0",
        Type::Match => "MATCH",
        Type::End => "END",
    }
}

fn refused(refusal: Refusal) -> String {
    let number = refusal.reason.number();
    match refusal.name {
        Some(name) => format!("refused {number} at {name}\n"),
        None => format!("refused {number}\n"),
    }
}
