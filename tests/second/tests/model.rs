//! C-22: the model's table, replayed.

use second::memory::{Call, Memory};
use second::model::{replay, Rule, PLACES, RULE};
use second::refusal::NO_NAME;

const REPLAYED: (u32, u32) = (0, 0);
const NO_TABLE: (u32, u32) = (17, NO_NAME);
const OUTSIDE: (u32, u32) = (18, NO_NAME);
/// The total above which a table is halved.
const MOST: usize = 65_504;

/// Runs of symbols, one behind the other.
fn runs(runs: &[(u8, usize)]) -> Vec<u8> {
    let run = |(symbol, times): &(u8, usize)| vec![*symbol; *times];
    runs.iter().flat_map(run).collect()
}

/// A trace replayed over what an unused record holds.
fn replayed(size: u32, trace: &[u8]) -> ((u32, u32), Memory) {
    let mut memory = Memory::to_write(0, 0);
    let trace = trace.to_vec();
    (memory.ask(&Call::ModelReplay { size, trace }), memory)
}

/// Answer, places from 0 on as symbol and frequency, and the total, which is their sum; from the
/// size on the record is as it was.
fn assert_leaves(size: u32, trace: &[u8], answer: (u32, u32), table: &[(u32, u32)]) {
    let (given, mut memory) = replayed(size, trace);
    assert_eq!(given, answer, "size {size}");
    let mut expected = Memory::to_write(0, 0);
    let model = expected.to_replay();
    for (place, (symbol, frequency)) in table.iter().enumerate() {
        (model.symbols[place], model.frequencies[place]) = (*symbol, *frequency);
    }
    let total = table.iter().map(|(_, frequency)| frequency).sum();
    *model.total = [total];
    let first =
        [memory.symbols.get(), memory.frequencies.get()].map(|lent| lent[..table.len()].to_vec());
    assert!(
        memory == expected,
        "{first:?} {:?}",
        memory.to_replay().total
    );
}

fn assert_replays(size: u32, trace: &[u8], table: &[(u32, u32)]) {
    assert_leaves(size, trace, REPLAYED, table);
}

/// Every symbol at its own place, seen once.
fn start(size: u32) -> Vec<(u32, u32)> {
    (0..size).map(|symbol| (symbol, 1)).collect()
}

#[test]
fn an_empty_trace_leaves_the_start() {
    for size in [1, 2, 3, 255, 256] {
        assert_replays(size, &[], &start(size));
    }
}

/// 17 before 18 and whatever the trace; the record stays as it was.
#[test]
fn sizes_of_1_to_256() {
    for size in [0, 257, 258, 511, 512, 65_536, 1 << 31, u32::MAX] {
        for trace in [vec![], vec![0], vec![255; 9_000]] {
            let (answer, memory) = replayed(size, &trace);
            assert_eq!(answer, NO_TABLE);
            assert!(memory == Memory::to_write(0, 0));
        }
    }
    assert_replays(1, &[0, 0], &[(0, 17)]);
    let (answer, mut memory) = replayed(256, &[255]);
    assert_eq!(answer, REPLAYED);
    let model = memory.to_replay();
    assert_eq!((model.symbols[254], model.frequencies[254]), (255, 9));
    assert_eq!((model.symbols[255], model.frequencies[255]), (254, 1));
    assert_eq!(*model.total, [264]);
}

#[test]
fn what_the_record_held_is_not_looked_at() {
    let trace = runs(&[(2, 40), (0, 7), (1, 9_000)]);
    let call = Call::ModelReplay { size: 3, trace };
    let mut tables = Vec::new();
    for held in [0, 1, 255, u32::MAX] {
        let mut memory = Memory::to_write(0, 0);
        let model = memory.to_replay();
        model.symbols.fill(held);
        model.frequencies.fill(held);
        model.total.fill(held);
        for _ in 0..2 {
            assert_eq!(memory.ask(&call), REPLAYED);
            let model = memory.to_replay();
            assert_eq!(model.symbols[3..], [held; PLACES - 3]);
            assert_eq!(model.frequencies[3..], [held; PLACES - 3]);
            let (symbols, frequencies) = (&model.symbols[..3], &model.frequencies[..3]);
            tables.push((symbols.to_vec(), frequencies.to_vec(), *model.total));
        }
    }
    assert!(tables.iter().all(|table| *table == tables[0]), "{tables:?}");
}

/// The table keeps what the symbols before it did; what comes after does nothing.
#[test]
fn a_symbol_outside_the_table() {
    assert_leaves(3, &[3], OUTSIDE, &start(3));
    assert_leaves(3, &[255, 2, 2], OUTSIDE, &start(3));
    let two = [(0, 1), (2, 9), (1, 1)];
    assert_leaves(3, &[2, 3], OUTSIDE, &two);
    assert_leaves(3, &[2, 3, 2, 2, 3], OUTSIDE, &two);
    assert_leaves(1, &[0, 0, 1, 0], OUTSIDE, &[(0, 17)]);
    assert_leaves(255, &[255], OUTSIDE, &start(255));
    let all: Vec<u8> = (0..=255).collect();
    assert_eq!(replayed(256, &all).0, REPLAYED);
    // Behind a halving.
    let long = runs(&[(0, 8_188), (2, 1), (0, 1)]);
    assert_leaves(2, &long, OUTSIDE, &[(0, 32_753), (1, 1)]);
}

/// 65,504 itself stays; at 65,512 every frequency is halved.
#[test]
fn above_65504_every_frequency_is_halved() {
    let table = |frequency| {
        let mut table = start(8);
        table[0].1 = frequency;
        table
    };
    let most = (MOST - 8) / 8;
    assert_replays(8, &vec![0; most], &table(65_497));
    assert_replays(8, &vec![0; most + 1], &table(65_505 - 65_505 / 2));
    assert_replays(8, &vec![0; most + 2], &table(32_753 + 8));
    // With one place the total is 1 more than a multiple of 8.
    assert_replays(1, &vec![0; 8_187], &[(0, 65_497)]);
    assert_replays(1, &vec![0; 8_188], &[(0, 32_753)]);
}

/// The sum of the halves, not half of the sum: every 1 stays 1.
#[test]
fn the_total_is_summed_afresh() {
    let mut table = start(256);
    table[0].1 = 65_257 - 65_257 / 2;
    let trace = vec![0; (65_512 - 256) / 8];
    assert_replays(256, &trace, &table);
    let total: u32 = table.iter().map(|(_, frequency)| frequency).sum();
    assert_eq!(total, (65_512 + 256) / 2);
}

/// A symbol that is seven short gets one ahead by its step; halved in that step the two are equal,
/// and it stays.
#[test]
fn a_move_is_judged_by_the_halved_numbers() {
    let trace = runs(&[(2, 3), (1, 7), (0, 16_367), (1, 4_093)]);
    assert_replays(3, &trace, &[(0, 16_376), (1, 16_376), (2, 2)]);
}

/// The lower symbol of two moves up once it is seen more often, and not while they are equal.
#[test]
fn a_move_only_past_a_smaller_one() {
    assert_replays(2, &[0, 1], &[(0, 9), (1, 9)]);
    assert_replays(2, &[0, 1, 1], &[(1, 17), (0, 9)]);
    assert_replays(2, &[0, 1, 1, 0], &[(1, 17), (0, 17)]);
    assert_replays(2, &[0, 1, 1, 0, 0], &[(0, 25), (1, 17)]);
}

/// However far it could go; and none at place 0.
#[test]
fn a_move_by_one_place() {
    assert_replays(4, &[3], &[(0, 1), (1, 1), (3, 9), (2, 1)]);
    assert_replays(4, &[3, 3], &[(0, 1), (3, 17), (1, 1), (2, 1)]);
    assert_replays(4, &[3, 3, 3], &[(3, 25), (0, 1), (1, 1), (2, 1)]);
    assert_replays(4, &[3, 3, 3, 3], &[(3, 33), (0, 1), (1, 1), (2, 1)]);
    // Only the symbol that was seen: 3 stays below 0, then below 1, which it exceeds.
    assert_replays(4, &[3, 3, 2, 2], &[(0, 1), (3, 17), (2, 17), (1, 1)]);
    assert_replays(4, &[3, 2, 0], &[(0, 9), (1, 1), (3, 9), (2, 9)]);
}

/// The table that the published library would leave, with its own step and limit, is another.
#[test]
fn another_growth_or_most_is_another_table() {
    let trace = runs(&[(0, 5_000), (1, 4_000), (2, 30)]);
    let table = |rule| {
        let mut memory = Memory::to_write(0, 0);
        assert!(replay(rule, 3, &trace, &mut memory.to_replay()).is_ok());
        let model = memory.to_replay();
        (model.symbols[..3].to_vec(), model.frequencies[..3].to_vec())
    };
    let published = Rule {
        growth: 16,
        most: 65_519,
    };
    assert_ne!(table(RULE), table(published));
    assert_ne!(
        table(RULE),
        table(Rule {
            most: 65_519,
            ..RULE
        })
    );
}
