//! Valid blocks, thought up name by name: each name's text is known before it is encoded.

use super::random::Random;
use super::script::{Packed, Script};
use crate::directory::{MOST_BYTES, MOST_ROWS};

/// So many tokens of one name keep a row; END follows at the last position.
pub const MOST_TOKENS: usize = MOST_ROWS as usize;

/// A block, and the names and distances it must give.
pub struct Planned {
    pub names: Vec<Vec<u8>>,
    pub distances: Vec<u32>,
    pub block: Packed,
}

/// The names thought up so far, and their streams.
pub struct Plan {
    names: Vec<Name>,
    distances: Vec<u32>,
    longest: usize,
    script: Script,
}

/// What a token stands for; printed here by the formatter, not by the reader's rules.
#[derive(Clone)]
enum Thought {
    Text(Vec<u8>),
    Byte(u8),
    Number(u32),
    Wide(u32, u8),
}

/// How a token is put into the stream.
#[derive(Clone, Copy)]
enum Way {
    Plain,
    Delta(u8),
    Match,
}

#[derive(Clone)]
struct Name {
    text: Vec<u8>,
    tokens: Vec<(Way, Thought)>,
}

impl Thought {
    fn print(&self) -> Vec<u8> {
        match self {
            Thought::Text(text) => text.clone(),
            Thought::Byte(byte) => vec![*byte],
            Thought::Number(number) => format!("{number}").into_bytes(),
            Thought::Wide(number, width) => {
                format!("{number:0>width$}", width = usize::from(*width)).into_bytes()
            }
        }
    }
}

/// A block of so many names at most; in half of the blocks later names may start afresh.
pub fn planned(random: &mut Random, most: usize) -> Planned {
    let fresh = random.pick(&[0, 0, 10, 40]);
    Plan::new(random, most, fresh).laid_out(random)
}

impl Plan {
    /// So many percent of the later names start afresh.
    pub fn new(random: &mut Random, most: usize, fresh: usize) -> Plan {
        let count = random.between(1, most);
        let mut plan = Plan {
            names: Vec::new(),
            distances: Vec::new(),
            longest: random.pick(&[1, 3, 8, 8, 20, MOST_TOKENS]),
            script: Script::new(),
        };
        let duplicates = random.pick(&[0, 15, 15, 70]);
        for number in 0..count {
            let back = distance(random, number, fresh);
            let is_dup = back > 0 && random.percent(duplicates);
            plan.add(random, back, is_dup);
        }
        plan
    }

    /// The next name, so far back from its earlier name.
    fn add(&mut self, random: &mut Random, back: usize, is_dup: bool) {
        let earlier = (back > 0).then(|| &self.names[self.names.len() - back]);
        let name = match earlier {
            Some(earlier) if is_dup => earlier.clone(),
            _ => think(random, earlier, self.longest),
        };
        self.put(|script| {
            if is_dup {
                script.dup(back as u32)
            } else {
                encode(script.diff(back as u32), &name)
            }
        });
        self.distances.push(back as u32);
        self.names.push(name);
    }

    /// A fresh start thought up as if it could lean on the name before; if it does, it is to be refused.
    pub fn lean_afresh(&mut self, random: &mut Random) {
        let name = think(random, self.names.last(), self.longest);
        self.put(|script| encode(script.diff(0), &name));
    }

    /// Anything behind the names so far.
    pub fn put(&mut self, more: impl FnOnce(Script) -> Script) {
        self.script = more(std::mem::take(&mut self.script));
    }

    /// How many names there are.
    pub fn count(&self) -> u32 {
        self.names.len() as u32
    }

    pub fn laid_out(self, random: &mut Random) -> Planned {
        let block = if random.percent(50) {
            self.script.packed()
        } else {
            self.script.scattered(random)
        };
        Planned {
            names: self.names.into_iter().map(|name| name.text).collect(),
            distances: self.distances,
            block,
        }
    }
}

/// 0 for name 0 and for so many percent of the others, which start afresh.
fn distance(random: &mut Random, number: usize, fresh: usize) -> usize {
    if number == 0 || random.percent(fresh) {
        return 0;
    }
    match random.below(3) {
        0 => 1,
        1 => number,
        _ => random.between(1, number),
    }
}

fn think(random: &mut Random, earlier: Option<&Name>, longest: usize) -> Name {
    let wanted = match random.below(4) {
        0 => longest,
        _ => random.between(1, longest),
    };
    let mut text = Vec::new();
    let mut tokens = Vec::new();
    for place in 0..wanted {
        let left = MOST_BYTES - text.len();
        let row = earlier.and_then(|name| name.tokens.get(place));
        let row = row.map(|(_, thought)| thought);
        // So many tokens fit into a name only if they are short.
        let widest = if longest == MOST_TOKENS { 2 } else { left };
        let (way, thought) = token(random, row, widest);
        let printed = thought.print();
        if printed.len() > left {
            break;
        }
        text.extend(printed);
        tokens.push((way, thought));
    }
    if text.is_empty() {
        let byte = random.allowed();
        tokens.pop();
        tokens.push((Way::Plain, Thought::Byte(byte)));
        text.push(byte);
    }
    Name { text, tokens }
}

fn token(random: &mut Random, row: Option<&Thought>, left: usize) -> (Way, Thought) {
    if let Some(row) = row {
        if random.percent(45) {
            return (Way::Match, row.clone());
        }
        let delta = random.byte();
        if let Some(sum) = stepped(row, delta).filter(|_| random.percent(60)) {
            return (Way::Delta(delta), sum);
        }
    }
    (Way::Plain, plain(random, left))
}

/// The row with the delta added, where the rules allow one.
fn stepped(row: &Thought, delta: u8) -> Option<Thought> {
    match row {
        Thought::Number(number) => number.checked_add(delta.into()).map(Thought::Number),
        Thought::Wide(number, width) => {
            let sum = number.checked_add(delta.into())?;
            let fits = format!("{sum}").len() <= usize::from(*width);
            fits.then_some(Thought::Wide(sum, *width))
        }
        Thought::Text(_) | Thought::Byte(_) => None,
    }
}

fn plain(random: &mut Random, left: usize) -> Thought {
    match random.below(4) {
        2 | 3 if left <= 2 => Thought::Wide(random.below(10) as u32, left.max(1) as u8),
        0 => Thought::Text(text(random, left)),
        1 => Thought::Byte(random.allowed()),
        2 => Thought::Number(random.printed_number()),
        _ => {
            let number = random.printed_number();
            let least = format!("{number}").len();
            let most = random.pick(&[least, least + 1, least + 4, left.max(least)]);
            Thought::Wide(number, random.between(least, most) as u8)
        }
    }
}

/// Also empty texts, texts of digits alone, and texts that fill the name.
pub fn text(random: &mut Random, left: usize) -> Vec<u8> {
    let length = match random.below(20) {
        0..=2 => 0,
        3 => left,
        4 => random.between(0, left),
        _ => random.between(1, 8.min(left.max(1))),
    };
    let digits = random.percent(25);
    let byte = |_| {
        if digits {
            random.digit()
        } else {
            random.allowed()
        }
    };
    (0..length).map(byte).collect()
}

fn encode(script: Script, name: &Name) -> Script {
    let put = |script: Script, (way, thought): &(Way, Thought)| match (way, thought) {
        (Way::Match, _) => script.matched(),
        (Way::Delta(delta), Thought::Wide(..)) => script.ddelta0(*delta),
        (Way::Delta(delta), _) => script.ddelta(*delta),
        (Way::Plain, Thought::Text(text)) => script.string(text),
        (Way::Plain, Thought::Byte(byte)) => script.char(*byte),
        (Way::Plain, Thought::Number(number)) => script.digits(*number),
        (Way::Plain, Thought::Wide(number, width)) => script.digits0(*number, *width),
    };
    name.tokens.iter().fold(script, put).end()
}
