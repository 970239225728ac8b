//! The model's table, replayed: traces of symbols, and the library and the second program over them.

use crate::clock::{shortest, Rounds};
use crate::work::Holder;
use second::boundary::Linked;
use second::calls::Second;
use second::cases::random::Random;
use second::memory::{Call, Memory};
use std::hint::black_box;

/// Symbols of a trace; the total passes 65,504 several times.
pub const LENGTH: usize = 65_536;

/// How a trace's symbols are drawn, and for a table of which size.
#[derive(Clone, Copy)]
pub struct Trace {
    size: u32,
    draw: fn(&mut Random) -> usize,
}

pub const TRACES: [(&str, Trace); 4] = [
    (
        "one symbol of 256",
        Trace {
            size: 256,
            draw: |_| 255,
        },
    ),
    (
        "4 symbols, even",
        Trace {
            size: 4,
            draw: |random| random.below(4),
        },
    ),
    // As qualities fall: half of them one symbol, half of the rest another, and so on.
    (
        "40 symbols, halving",
        Trace {
            size: 40,
            draw: |random| (random.draw().trailing_ones() as usize).min(39),
        },
    ),
    (
        "256 symbols, even",
        Trace {
            size: 256,
            draw: |random| random.below(256),
        },
    ),
];

/// A trace, and a record to replay it into.
pub struct Replay {
    memory: Memory,
    call: Call,
}

impl Replay {
    pub fn new(trace: Trace) -> Replay {
        let mut random = Random::new(22);
        let symbol = |_| (trace.draw)(&mut random) as u8;
        Replay {
            memory: Memory::to_write(0, 0),
            call: Call::ModelReplay {
                size: trace.size,
                trace: (0..LENGTH).map(symbol).collect(),
            },
        }
    }

    /// False for a holder that has no such call.
    pub fn run(&mut self, holder: Holder) -> bool {
        let answer = match holder {
            Holder::Library => self.memory.run(&Linked, &self.call),
            Holder::Second => self.memory.run(&Second, &self.call),
            _ => return false,
        };
        assert_eq!(black_box(answer), 0, "the trace is replayed");
        true
    }
}

/// Times of both, a symbol.
pub fn print(rounds: Rounds) {
    println!();
    println!("A model's table replayed: time a symbol, {LENGTH} of them, and the library's as a ratio to the second's");
    println!(
        "{:22} {:>9} {:>9} {:>6}",
        "trace", "library", "second", "ratio"
    );
    for (word, trace) in TRACES {
        let mut replay = Replay::new(trace);
        let holders = [Holder::Library, Holder::Second];
        let taken = shortest(rounds.of(LENGTH as u32), &holders, |holder| {
            replay.run(holder);
        });
        let [library, second] = [taken[0], taken[1]].map(|taken| taken / LENGTH as f64);
        println!(
            "{word:22} {library:>9.1} {second:>9.1} {:>6.2}",
            library / second
        );
    }
}
