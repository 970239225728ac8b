//! Fresh starts inside a block: later names of DIFF 0, names that lean on them and past them, and
//! what a fresh start doesn't allow.

use super::blocks::{Plan, Planned};
use super::damage;
use super::random::Random;
use super::script::Script;
use crate::directory::{place, Stream};
use crate::kept::FIVE;
use crate::memory::Memory;

/// A block in which many later names start afresh. Often one more name follows those it must give.
pub fn block(random: &mut Random, most: usize) -> Planned {
    let often = random.pick(&[30, 60]);
    let mut plan = Plan::new(random, most, often);
    if random.percent(60) {
        spoil(random, &mut plan);
    }
    plan.laid_out(random)
}

/// A name that leans though it starts afresh, or whose distance no name may have.
fn spoil(random: &mut Random, plan: &mut Plan) {
    let count = plan.count();
    let above = count + random.pick(&[1, 2, 1 << 24, u32::MAX - count]);
    match random.below(8) {
        0 => plan.put(|script| script.dup(0)),
        1 => plan.put(|script| script.dup(above)),
        2 => plan.put(|script| script.diff(above)),
        3 => plan.put(|script| cut_delta(random, script)),
        _ => plan.lean_afresh(random),
    }
}

/// A fresh start with a delta that has no byte.
fn cut_delta(random: &mut Random, script: Script) -> Script {
    let tokens = random.below(3);
    let begun = (0..tokens).fold(script.diff(0), |script, _| script.char(b'c'));
    begun.kind(random.pick(&[11, 12]))
}

/// Changes to what is kept, after some honest reads.
pub fn harm(random: &mut Random, memory: &mut Memory) {
    match random.below(6) {
        0 | 1 => ruin(random, memory),
        2 | 3 => put_back(memory),
        4 => damage::kept(random, memory),
        _ => {}
    }
}

/// All entries, all rows or both, so that every name that leans is 13.
fn ruin(random: &mut Random, memory: &mut Memory) {
    let [_, names, _, rows] = memory.state_numbers().map(|used| FIVE * used as usize);
    let which = random.below(3);
    if which != 0 {
        memory.names.get_mut()[..names].fill(u32::MAX);
    }
    if which != 1 {
        memory.rows.get_mut()[..rows].fill(u32::MAX);
    }
}

/// The cursor of DIFF put back on the distance of name 0, which is 0.
fn put_back(memory: &mut Memory) {
    let diff = place(0, Stream::Diff);
    memory.cursors.get_mut()[diff] = memory.directory.get()[2 * diff];
}
