//! A block from an input: a byte says what comes next, a name's beginning, a token or bytes
//! in some stream.

use crate::input::Input;
use second::cases::script::{Packed, Script};
use second::directory::{Stream, LAST_POSITION, POSITIONS, STREAMS};

/// Names of a block at most, to keep the tables small.
pub const MOST_NAMES: u32 = 20;

/// The streams so far, and where the next token stands in them.
struct Draft {
    script: Script,
    position: usize,
    count: u32,
}

pub fn block(input: &mut Input<'_>) -> Packed {
    let mut draft = Draft {
        script: Script::new(),
        position: 0,
        count: 0,
    };
    while !input.is_empty() && draft.next(input) {}
    draft.script.packed()
}

impl Draft {
    /// False at the end of the block.
    fn next(&mut self, input: &mut Input<'_>) -> bool {
        match input.below(16) {
            what @ 0..=2 => return self.lead(what, input),
            15 => return false,
            14 => self.stray(input),
            13 => self.repeat(input),
            what => self.token(what, input),
        }
        true
    }

    fn lead(&mut self, what: usize, input: &mut Input<'_>) -> bool {
        if self.count == MOST_NAMES {
            return false;
        }
        self.position = 0;
        self.count += 1;
        self.put(|script| match what {
            0 => script.diff(distance(input)),
            1 => script.dup(distance(input)),
            _ => script.lead(input.byte()),
        });
        true
    }

    /// Nothing once the positions are used up.
    fn token(&mut self, what: usize, input: &mut Input<'_>) {
        if self.position == LAST_POSITION {
            return;
        }
        self.position += 1;
        self.put(|script| match what {
            3 => {
                let length = input.below(32);
                script.string(input.take(length))
            }
            4 => script.string(&run(input)),
            5 => script.char(input.byte()),
            6 => script.digits(input.number()),
            7 => script.digits0(input.number(), input.byte()),
            8 => script.ddelta(input.byte()),
            9 => script.ddelta0(input.byte()),
            10 => script.matched(),
            11 => script.end(),
            _ => script.kind(input.byte()),
        });
    }

    /// One token over and over: no input reaches position 128 token by token.
    fn repeat(&mut self, input: &mut Input<'_>) {
        let times = input.below(LAST_POSITION + 1);
        let byte = input.byte();
        for _ in 0..times {
            let mut same = Input::new(std::slice::from_ref(&byte));
            self.token([3, 5, 10][times % 3], &mut same);
        }
    }

    /// Bytes where perhaps no token looks for them.
    fn stray(&mut self, input: &mut Input<'_>) {
        let position = input.below(POSITIONS);
        let stream = Stream::ALL[input.below(STREAMS)];
        let bytes = match input.below(8) {
            7 => run(input),
            length => input.take(length).to_vec(),
        };
        self.put(|script| script.put(position, stream, &bytes));
    }

    fn put(&mut self, more: impl FnOnce(Script) -> Script) {
        self.script = more(std::mem::take(&mut self.script));
    }
}

/// A byte over and over, also more often than a name may have bytes.
fn run(input: &mut Input<'_>) -> Vec<u8> {
    let byte = input.byte();
    vec![byte; input.place(520)]
}

/// As it stands, but for the highest byte values: distances of four bytes.
fn distance(input: &mut Input<'_>) -> u32 {
    match input.byte() {
        byte @ 250.. => u32::from(byte) << 24 | 1,
        byte => byte.into(),
    }
}
