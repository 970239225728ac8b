//! The times of a set of names, each taken once; every table shows these.

use crate::clock::{shortest, Rounds};
use crate::names::Names;
use crate::work::{each_block, Call, Holder, Work, CALLS, HOLDERS};
use std::collections::HashMap;

pub struct Figures {
    pub word: String,
    pub count: usize,
    tokens: u64,
    /// Nanoseconds for all of the names, of each call by each holder that has it.
    times: HashMap<(Call, Holder), f64>,
}

impl Figures {
    pub fn of(names: &Names, rounds: Rounds) -> Result<Figures, String> {
        Figures::by_turns([names], rounds).map(|[figures]| figures)
    }

    /// Of the same names put in several ways: the holders of a call in each way by turns, one block
    /// after the other; their times added up.
    pub fn by_turns<const WAYS: usize>(
        ways: [&Names; WAYS],
        rounds: Rounds,
    ) -> Result<[Figures; WAYS], String> {
        let mut all = ways.map(|names| Figures {
            word: names.word.clone(),
            count: names.count(),
            tokens: 0,
            times: HashMap::new(),
        });
        each_block(&ways, |works| {
            for (figures, work) in all.iter_mut().zip(works.iter()) {
                figures.tokens += u64::from(work.tokens());
            }
            for (_, call) in CALLS {
                let turns = turns(works, call);
                let times = shortest(rounds.of(works[0].count), &turns, |(way, holder)| {
                    works[way].run(holder, call)
                });
                for ((way, holder), time) in turns.into_iter().zip(times) {
                    *all[way].times.entry((call, holder)).or_default() += time;
                }
            }
            Ok(())
        })?;
        Ok(all)
    }

    pub fn a_name(&self, call: Call, holder: Holder) -> Option<f64> {
        let time = self.times.get(&(call, holder))?;
        Some(time / self.count as f64)
    }

    /// The library's.
    pub fn a_token(&self, call: Call) -> f64 {
        self.times[&(call, Holder::Library)] / self.tokens as f64
    }
}

/// Each way with each holder that has the call there.
fn turns(works: &[Work], call: Call) -> Vec<(usize, Holder)> {
    let ways = works.iter().enumerate();
    let turns = ways.flat_map(|(way, work)| HOLDERS.map(|(_, holder)| (way, work, holder)));
    let turns = turns.filter(|(_, work, holder)| work.has(*holder, call));
    turns.map(|(way, _, holder)| (way, holder)).collect()
}
