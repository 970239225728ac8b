//! C-22: the table of the adaptive model, replayed from a trace of the symbols it saw.

use crate::refusal::{Answer, Reason, Refusal};

/// As many places as a record has; a table has some of them, from the first on.
pub const PLACES: usize = 256;

/// What a replay is lent.
pub struct Model<'a> {
    pub symbols: &'a mut [u32; PLACES],
    pub frequencies: &'a mut [u32; PLACES],
    pub total: &'a mut [u32; 1],
}

/// By how much a symbol that was seen grows, and the largest total that isn't halved.
#[derive(Clone, Copy)]
pub struct Rule {
    pub growth: u32,
    pub most: u32,
}

/// Document 002's, which is also the request's.
pub const RULE: Rule = Rule {
    growth: 8,
    most: 65_504,
};

/// The table that a trace leaves, from the start.
pub fn replay(
    rule: Rule,
    size: u32,
    trace: &[u8],
    model: &mut Model<'_>,
) -> Result<Answer, Refusal> {
    if size == 0 || size > PLACES as u32 {
        return Err(Reason::TableSize.into());
    }
    let mut table = Table::new(size as usize, model);
    for symbol in trace {
        let place = table.place_of(*symbol).ok_or(Reason::Symbol)?;
        table.saw(rule, place);
    }
    Ok(Answer::Replayed)
}

/// The places in use, and the total.
struct Table<'a> {
    symbols: &'a mut [u32],
    frequencies: &'a mut [u32],
    total: &'a mut u32,
}

impl<'a> Table<'a> {
    /// Started: every symbol at its own place, seen once.
    fn new(size: usize, model: &'a mut Model<'_>) -> Table<'a> {
        let table = Table {
            symbols: &mut model.symbols[..size],
            frequencies: &mut model.frequencies[..size],
            total: &mut model.total[0],
        };
        for (place, symbol) in table.symbols.iter_mut().enumerate() {
            *symbol = place as u32;
        }
        table.frequencies.fill(1);
        *table.total = size as u32;
        table
    }

    fn place_of(&self, symbol: u8) -> Option<usize> {
        let mut places = self.symbols.iter();
        places.position(|stands| *stands == u32::from(symbol))
    }

    fn saw(&mut self, rule: Rule, place: usize) {
        self.frequencies[place] += rule.growth;
        *self.total += rule.growth;
        if *self.total > rule.most {
            self.halve();
        }
        if place > 0 && self.frequencies[place] > self.frequencies[place - 1] {
            self.frequencies.swap(place, place - 1);
            self.symbols.swap(place, place - 1);
        }
    }

    /// Each less its half rounded down, so that none becomes 0.
    fn halve(&mut self) {
        for frequency in self.frequencies.iter_mut() {
            *frequency -= *frequency / 2;
        }
        *self.total = self.frequencies.iter().sum();
    }
}
