//! Streams that nobody meant.

use super::blocks::{text, MOST_TOKENS};
use super::random::Random;
use super::script::{Packed, Script};
use crate::directory::Stream;

/// How many kinds of wild token there are, and how many of them, the first ones, aren't made to lean.
const KINDS: usize = 60;
const PLAIN_KINDS: usize = 41;

/// Types and values taken at random, right often enough to get somewhere.
pub fn wild(random: &mut Random) -> Packed {
    let mut script = Script::new();
    for number in 0..random.between(1, 8) {
        let afresh = number == 0 || random.percent(20);
        script = wild_lead(random, script, number, afresh);
        script = if random.percent(5) {
            wild_to_the_last(random, script)
        } else {
            wild_tokens(random, script, afresh)
        };
    }
    script.packed()
}

/// A name that starts afresh gets nowhere with tokens that lean, so it mostly has none.
fn wild_tokens(random: &mut Random, script: Script, afresh: bool) -> Script {
    let tokens = random.below(7);
    let kinds = if afresh && random.percent(75) {
        PLAIN_KINDS
    } else {
        KINDS
    };
    let token = |script, _| wild_token(random, script, kinds);
    let script = (0..tokens).fold(script, token);
    if random.percent(95) {
        script.end()
    } else {
        script
    }
}

/// Short tokens up to position 127, and any type at position 128.
fn wild_to_the_last(random: &mut Random, script: Script) -> Script {
    let short = |script: Script, _| match random.below(3) {
        0 => script.string(b""),
        _ => script.char(random.allowed()),
    };
    let script = (1..=MOST_TOKENS).fold(script, short);
    match random.below(4) {
        0 => script.end(),
        1 => script.kind(random.byte()),
        _ => script.kind(random.pick(&[1, 2, 4, 7, 11, 12, 13])),
    }
}

fn wild_lead(random: &mut Random, script: Script, number: usize, afresh: bool) -> Script {
    let distance = random.below(number + 2) as u32;
    match random.below(40) {
        0 => script.lead(random.byte()),
        1 => script.lead(5),
        2 => script.dup(random.number()),
        3 => script.diff(distance << 24),
        4..=9 => script.dup(distance),
        _ if afresh => script.diff(0),
        _ => script.diff(distance),
    }
}

fn wild_token(random: &mut Random, script: Script, kinds: usize) -> Script {
    let number = random.printed_number();
    match random.below(kinds) {
        0 => script.kind(random.byte()),
        1 => script.char(random.byte()),
        2 => script.string(&[random.byte()]),
        3 => script.digits0(number, random.byte()),
        4 => cut_short(random, script),
        5 => script.string(&vec![b'q'; random.between(240, 300)]),
        6 => {
            // Around the longest name, with a number that may not fit its width either.
            let long = script.string(&vec![b'q'; random.between(245, 254)]);
            long.digits0(number, random.below(4) as u8)
        }
        7..=14 => script.digits(number),
        15..=24 => script.digits0(number, 10),
        25..=32 => script.string(&text(random, 20)),
        33..=40 => script.char(random.allowed()),
        41..=45 => script.ddelta(random.byte()),
        46..=50 => script.ddelta0(random.byte()),
        _ => script.matched(),
    }
}

/// A type without its value, or with a part of it.
fn cut_short(random: &mut Random, script: Script) -> Script {
    match random.below(4) {
        0 => {
            let width = random.pick(&[0, 1, 255]);
            script.kind(4).value(Stream::Dzlen, &[width])
        }
        1 => script.kind(4).value(Stream::Digits0, &[1, 0, 0, 0]),
        2 => script.kind(7).value(Stream::Digits, &[1, 0, 0]),
        _ => script.kind(random.pick(&[1, 2, 4, 7, 11, 12, 13])),
    }
}
