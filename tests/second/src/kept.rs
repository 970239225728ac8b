//! The kept tables at the edge: the state, the entries, and what 13 says of them.

use crate::directory::{MOST_BYTES, MOST_NAMES, MOST_ROWS};
use crate::name::{NewName, NewRows};
use crate::refusal::Reason;
use crate::row::{within, Row};
use crate::token::Token;

/// Numbers of an entry and of a row alike.
pub const FIVE: usize = 5;

/// What a read is lent to keep names in.
pub struct Tables<'a> {
    pub text: &'a mut [u8],
    pub names: &'a mut [u32],
    pub rows: &'a mut [u32],
    pub state: &'a mut [u32; 4],
}

#[derive(Clone, Copy, Debug, PartialEq, Eq)]
pub struct State {
    pub count: u32,
    pub kept: u32,
    pub text_used: u32,
    pub rows_used: u32,
}

impl State {
    pub fn from_numbers(numbers: [u32; 4]) -> State {
        let [count, kept, text_used, rows_used] = numbers;
        State {
            count,
            kept,
            text_used,
            rows_used,
        }
    }

    pub fn numbers(&self) -> [u32; 4] {
        [self.count, self.kept, self.text_used, self.rows_used]
    }

    /// 13 for the counts, as far as a claim judges them.
    pub fn judge_names(&self, text: &[u8], names: &[u32]) -> Result<(), Reason> {
        let text_used = u64::from(self.text_used);
        let good = self.count <= MOST_NAMES
            && self.kept <= self.count
            && self.kept as usize <= names.len() / FIVE
            && text_used <= text.len() as u64
            && text_used <= 255 * u64::from(self.kept);
        good.then_some(()).ok_or(Reason::Outside)
    }

    /// 13 for the rows used, which only a read judges.
    pub fn judge_rows(&self, rows: &[u32]) -> Result<(), Reason> {
        let used = u64::from(self.rows_used);
        let good = used <= (rows.len() / FIVE) as u64
            && used <= u64::from(MOST_ROWS) * u64::from(self.kept);
        good.then_some(()).ok_or(Reason::Outside)
    }

    fn after(&self, name: &NewName) -> State {
        State {
            count: self.count,
            kept: self.kept + 1,
            text_used: self.text_used + name.text.len() as u32 + 1,
            rows_used: self.rows_used + name.added().len() as u32,
        }
    }
}

/// An entry of the name table.
#[derive(Clone, Copy, Debug, PartialEq, Eq)]
pub struct Entry {
    pub text_start: u32,
    pub text_length: u32,
    pub first_row: u32,
    pub row_count: u32,
    pub distance: u32,
}

impl Entry {
    /// The number must be below k, and k judged before.
    pub fn of(names: &[u32], number: u32) -> Entry {
        let [text_start, text_length, first_row, row_count, distance] = five(names, number);
        Entry {
            text_start,
            text_length,
            first_row,
            row_count,
            distance,
        }
    }

    pub fn numbers(&self) -> [u32; 5] {
        [
            self.text_start,
            self.text_length,
            self.first_row,
            self.row_count,
            self.distance,
        ]
    }

    /// The entry's text, or 13: its byte 10 isn't part of it.
    pub fn text<'a>(&self, used: &'a [u8]) -> Result<&'a [u8], Reason> {
        let text = within(used, self.text_start, self.text_length);
        let fitting = text.filter(|text| (1..=MOST_BYTES).contains(&text.len()));
        fitting.ok_or(Reason::Outside)
    }

    /// The numbers of the entry's rows, or 13.
    fn row_numbers(&self, rows_used: u32) -> Result<std::ops::Range<u32>, Reason> {
        let end = u64::from(self.first_row) + u64::from(self.row_count);
        if (1..=MOST_ROWS).contains(&self.row_count) && end <= u64::from(rows_used) {
            Ok(self.first_row..self.first_row + self.row_count)
        } else {
            Err(Reason::Outside)
        }
    }
}

/// The earlier name as kept, judged with all its rows.
pub struct Earlier<'a> {
    pub text: &'a [u8],
    pub entry: Entry,
    pub rows: Vec<Token<'a>>,
}

impl<'a> Earlier<'a> {
    fn load(tables: &'a Tables<'_>, state: State, number: u32) -> Result<Self, Reason> {
        let used = &tables.text[..state.text_used as usize];
        let entry = Entry::of(tables.names, number);
        let text = entry.text(used)?;
        let row = |number| Row::from_numbers(five(tables.rows, number)).token(used);
        let rows = entry.row_numbers(state.rows_used)?.map(row);
        Ok(Earlier {
            text,
            entry,
            rows: rows.collect::<Result<_, _>>()?,
        })
    }
}

impl Tables<'_> {
    /// The same for one call, to be had back after it.
    pub fn lend(&mut self) -> Tables<'_> {
        Tables {
            text: self.text,
            names: self.names,
            rows: self.rows,
            state: self.state,
        }
    }

    /// 13 for the counts of a read; the state if they are sound.
    pub fn judge(&self) -> Result<State, Reason> {
        let state = State::from_numbers(*self.state);
        state.judge_names(self.text, self.names)?;
        state.judge_rows(self.rows)?;
        Ok(state)
    }

    pub fn earlier(&self, number: u32) -> Result<Earlier<'_>, Reason> {
        Earlier::load(self, State::from_numbers(*self.state), number)
    }

    /// Refusal 9, or the name's text with byte 10, its entry, its rows and the state.
    pub fn keep(&mut self, name: &NewName) -> Result<(), Reason> {
        let state = State::from_numbers(*self.state);
        let next = state.after(name);
        let room = next.text_used as usize <= self.text.len()
            && next.kept as usize <= self.names.len() / FIVE
            && next.rows_used as usize <= self.rows.len() / FIVE;
        if !room {
            return Err(Reason::Room);
        }
        self.keep_text(state, name);
        self.keep_rows(state, name);
        put_five(self.names, state.kept, name.entry(state).numbers());
        *self.state = next.numbers();
        Ok(())
    }

    fn keep_text(&mut self, state: State, name: &NewName) {
        let start = state.text_used as usize;
        let end = start + name.text.len();
        self.text[start..end].copy_from_slice(&name.text);
        self.text[end] = b'\n';
    }

    /// Rows come with places in their name; kept, they have places in the text buffer.
    fn keep_rows(&mut self, state: State, name: &NewName) {
        for (number, row) in (state.rows_used..).zip(name.added()) {
            let text_start = state.text_used + row.text_start;
            put_five(self.rows, number, Row { text_start, ..*row }.numbers());
        }
    }
}

impl NewName {
    fn entry(&self, state: State) -> Entry {
        let (first_row, row_count) = match &self.rows {
            NewRows::Shared { first, count } => (*first, *count),
            NewRows::Added(rows) => (state.rows_used, rows.len() as u32),
        };
        Entry {
            text_start: state.text_used,
            text_length: self.text.len() as u32,
            first_row,
            row_count,
            distance: self.distance,
        }
    }
}

fn five(table: &[u32], number: u32) -> [u32; 5] {
    let start = number as usize * FIVE;
    std::array::from_fn(|offset| table[start + offset])
}

fn put_five(table: &mut [u32], number: u32, numbers: [u32; 5]) {
    let start = number as usize * FIVE;
    table[start..start + FIVE].copy_from_slice(&numbers);
}
