//! The linked library beside the second program, over all families and the largest blocks.
#![cfg(feature = "linked")]

use second::boundary::Linked;
use second::calls::Second;
use second::cases::{edges, large, run_part};
use second::compare::{compare, Tally};
use second::refusal::DONE;
use second::round::WAYS;
use std::thread;

/// How many times a plain run's cases; AQSURVEL_CASES asks for more.
fn times() -> u64 {
    let asked = std::env::var("AQSURVEL_CASES").ok();
    asked.map_or(1, |times| {
        times.parse().expect("AQSURVEL_CASES is a number")
    })
}

/// How often users' round trip was made, in the way that was made least.
fn trips(tallies: &[Tally]) -> u64 {
    let made = |tally: &Tally, word| tally.get(&(word, DONE)).copied().unwrap_or(0);
    let made = WAYS.map(|way| tallies.iter().map(|tally| made(tally, way.word)).sum());
    made.into_iter().min().unwrap_or(0)
}

/// A part for each processor.
#[test]
fn all_families() {
    let parts = thread::available_parallelism().map_or(1, usize::from);
    let tallies: Vec<Tally> = thread::scope(|scope| {
        let begin = |part| scope.spawn(move || run_part(&Second, &Linked, times(), (part, parts)));
        let begun: Vec<_> = (0..parts as u64).map(begin).collect();
        let ended = begun.into_iter().map(|part| part.join().unwrap());
        ended.collect::<Result<_, _>>()
    })
    .unwrap_or_else(|found| panic!("{found}"));
    let calls: u64 = tallies.iter().flat_map(Tally::values).sum();
    let trips = trips(&tallies);
    println!("{} times, {calls} calls, {trips} round trips", times());
    assert!(calls > 300_000 * times());
    assert!(trips > 3_000 * times());
}

#[test]
fn the_largest_blocks() {
    let mut tally = Tally::new();
    for case in large::cases() {
        compare(&case, &Second, &Linked, &mut tally).unwrap();
    }
    assert_eq!(tally[&("write", 0)], 3);
    assert_eq!(tally[&("write", 12)], 3);
    assert_eq!(trips(&[tally]), 3);
}

#[test]
fn every_edge_of_some_small_blocks() {
    let mut tally = Tally::new();
    for case in edges::cases() {
        compare(&case, &Second, &Linked, &mut tally).unwrap();
    }
    assert!(tally.values().sum::<u64>() > 40_000, "{tally:?}");
    assert!(trips(&[tally]) > 0);
}
