//! Measurements of the linked library.
//!
//! `bench` prints the tables of times. `bench one` runs one call of one holder over 1,000
//! Illumina-like names so many times, prints how many names those are and nothing else, for a
//! counter of instructions; the difference between two such runs leaves the setting up out. With
//! a number behind it every so many-th of the names that are read starts afresh. `bench written`
//! prints what writing makes of names. With a file all three are of its names, a name a line; with
//! a family's word, of 1,000 of its names.
//! `bench replay` does for a trace of symbols what `bench one` does for names. `bench lent` says
//! what is lent in all of these.

#![deny(unsafe_code)]

mod clock;
mod figures;
mod names;
mod plain;
mod reference;
mod replays;
mod tables;
mod work;
mod written;

use clock::Rounds;
use names::{Names, COUNTED, ILLUMINA};
use replays::{Replay, LENGTH, TRACES};
use std::num::NonZeroUsize;
use std::process::ExitCode;
use std::str::FromStr;
use work::{by_word, each_block, CALLS, HOLDERS};

const USAGE: &str = "bench lent
bench [--names FILE|FAMILY] written
bench [--names FILE|FAMILY] [ROUNDS]
bench [--names FILE|FAMILY] one library|second|plain|tok3 CALL TIMES [AFRESH]
bench replay library|second TRACE TIMES
FAMILY: Illumina-like, PacBio-like, Nanopore-like or random
CALL: 'whole block', 'single reads', claims, 'writing, exact' or 'writing, ample'
AFRESH: every so many-th name that is read starts afresh
TRACE: 'one symbol of 256', '4 symbols, even', '40 symbols, halving' or '256 symbols, even'";

fn main() -> ExitCode {
    let words: Vec<String> = std::env::args().skip(1).collect();
    let words: Vec<&str> = words.iter().map(String::as_str).collect();
    match run(&words) {
        Ok(()) => ExitCode::SUCCESS,
        Err(said) => {
            eprintln!("{said}");
            ExitCode::FAILURE
        }
    }
}

fn run(words: &[&str]) -> Result<(), String> {
    let (names, words) = match words {
        ["--names", word, rest @ ..] => (Some(Names::of(word)?), rest),
        _ => (None, words),
    };
    match words {
        ["one", holder, call, times, afresh @ ..] => {
            let names = names.unwrap_or_else(|| ILLUMINA.names(COUNTED));
            let names = match afresh {
                [] => names,
                [every] => names.afresh(number::<NonZeroUsize>(every)?.get()),
                _ => return Err(USAGE.to_string()),
            };
            one(&names, holder, call, number(times)?)
        }
        ["replay", holder, trace, times] => replay(holder, trace, number(times)?),
        ["lent"] => {
            println!("{}", tables::LENT);
            Ok(())
        }
        ["written"] => written::print(names),
        [] => tables::print(names, Rounds(20)),
        [rounds] => tables::print(names, Rounds(number(rounds)?)),
        _ => Err(USAGE.to_string()),
    }
}

fn number<T: FromStr>(word: &str) -> Result<T, String> {
    word.parse().map_err(|_| USAGE.to_string())
}

fn one(names: &Names, holder: &str, call: &str, times: u32) -> Result<(), String> {
    let known = by_word(&HOLDERS, holder).zip(by_word(&CALLS, call));
    let (holder, call) = known.ok_or(USAGE)?;
    each_block(&[names], |works| {
        for work in works {
            if !work.has(holder, call) {
                return Err("this holder has no such call".to_string());
            }
            (0..times).for_each(|_| work.run(holder, call));
        }
        Ok(())
    })?;
    println!("{}", names.count());
    Ok(())
}

fn replay(holder: &str, trace: &str, times: u32) -> Result<(), String> {
    let known = by_word(&HOLDERS, holder).zip(by_word(&TRACES, trace));
    let (holder, trace) = known.ok_or(USAGE)?;
    let mut replay = Replay::new(trace);
    if !(0..times).all(|_| replay.run(holder)) {
        return Err("this holder has no such call".to_string());
    }
    println!("{LENGTH}");
    Ok(())
}
