//! What calls leave alone, and claims in any order, over the generated families.

use second::cases::blocks::planned;
use second::cases::random::Random;
use second::cases::{make, FAMILIES};
use second::memory::{Call, Memory, Room};
use second::refusal::DONE;

/// Runs a call and judges what it did to memory by its answer alone.
fn assert_frame(memory: &mut Memory, call: &Call) {
    let before = memory.clone();
    let answer = memory.ask(call);
    match (call, answer) {
        (Call::ReadBlock { count }, (2..=10 | DONE, _)) => {
            let steps = in_steps(before, *count);
            assert!(steps.0 == answer && steps.1 == *memory);
        }
        (Call::Open { count }, (0, _)) => assert_opened(before, memory, *count),
        (Call::Write { .. }, (0, total)) => assert_written(before, memory, total as usize),
        (Call::Read, (0, number)) => assert_one_kept(&before, memory, number),
        (Call::ModelReplay { size, .. }, (0 | 18, _)) => assert_replayed(before, memory, *size),
        _ => assert!(
            *memory == before,
            "{call:?}: {:?}",
            before.difference(memory)
        ),
    }
}

/// A whole read told as opening and single reads: the last answer and the memory.
fn in_steps(mut memory: Memory, count: u32) -> ((u32, u32), Memory) {
    let mut answer = memory.ask(&Call::Open { count });
    while answer.0 == 0 {
        answer = memory.ask(&Call::Read);
    }
    (answer, memory)
}

fn assert_opened(mut before: Memory, after: &Memory, count: u32) {
    assert_eq!(after.state_numbers(), [count, 0, 0, 0]);
    let starts = after.directory.get().iter().step_by(2);
    assert!(starts.eq(after.cursors.get()));
    before.cursors = after.cursors.clone();
    before.state = after.state.clone();
    assert!(*after == before);
}

fn assert_written(mut before: Memory, after: &Memory, total: usize) {
    assert_eq!(after.total_numbers()[1] as usize, total);
    assert_eq!(before.bytes.get()[total..], after.bytes.get()[total..]);
    before.bytes = after.bytes.clone();
    before.directory = after.directory.clone();
    before.totals = after.totals.clone();
    assert!(*after == before);
}

/// A replay writes the places below its size and the total, also where a symbol is outside. Each
/// symbol then stands in the table once, no frequency is 0, and the total is their sum and at most
/// 65,504.
fn assert_replayed(mut before: Memory, after: &Memory, size: u32) {
    let places = size as usize;
    let (symbols, rest) = after.symbols.get().split_at(places);
    assert_eq!(before.symbols.get()[places..], *rest);
    let (frequencies, rest) = after.frequencies.get().split_at(places);
    assert_eq!(before.frequencies.get()[places..], *rest);
    let mut sorted = symbols.to_vec();
    sorted.sort_unstable();
    assert!(sorted.into_iter().eq(0..size));
    let total = frequencies.iter().sum();
    assert!(frequencies.iter().all(|frequency| *frequency > 0));
    assert!(after.total.get() == [total] && total <= 65_504);
    before.symbols = after.symbols.clone();
    before.frequencies = after.frequencies.clone();
    before.total = after.total.clone();
    assert!(*after == before);
}

/// A read that keeps a name writes its text, entry and rows, and nothing else.
fn assert_one_kept(before: &Memory, after: &Memory, number: u32) {
    let [count, kept, text, rows] = before.state_numbers();
    let [count_after, kept_after, text_after, rows_after] = after.state_numbers();
    assert_eq!([count_after, kept_after], [count, kept + 1]);
    assert_eq!(number, kept);
    let entry = after.entry(number);
    assert_eq!(text_after, text + entry.text_length + 1);
    assert_eq!(entry.text_start, text);
    assert_same_but(before.text.get(), after.text.get(), text, text_after, 1);
    assert_same_but(before.names.get(), after.names.get(), kept, kept + 1, 5);
    assert_same_but(before.rows.get(), after.rows.get(), rows, rows_after, 5);
    let moved = after.cursors.get().iter().zip(before.cursors.get());
    assert!(moved.clone().all(|(after, before)| after >= before));
    assert!(after.cursors != before.cursors);
    assert!(after.bytes == before.bytes && after.directory == before.directory);
    assert!(after.totals == before.totals);
}

fn assert_same_but<T>(before: &[T], after: &[T], from: u32, to: u32, each: usize)
where
    T: PartialEq + std::fmt::Debug,
{
    let (from, to) = (from as usize * each, to as usize * each);
    assert_eq!(before[..from], after[..from]);
    assert_eq!(before[to..], after[to..]);
}

#[test]
fn every_call_keeps_its_frame() {
    let mut calls = 0;
    for family in &FAMILIES {
        for number in 0..1_500 {
            let case = make(family, number);
            let mut memory = case.memory;
            for call in &case.calls {
                assert_frame(&mut memory, call);
                calls += 1;
            }
        }
    }
    assert!(calls > 30_000, "only {calls} calls");
}

/// A refused call repeated gives the same answer, and more room lets the read go on.
#[test]
fn a_read_refused_for_room_goes_on_with_more() {
    for seed in 0..300 {
        let planned = planned(&mut Random::new(seed), 5);
        let mut memory = Memory::new(
            &planned.block,
            Room {
                text: 0,
                names: 0,
                rows: 0,
            },
        );
        let count = planned.block.count;
        memory.ask(&Call::Open { count });
        for number in 0..count {
            for _ in 0..2 {
                assert_eq!(memory.ask(&Call::Read), (9, number));
            }
            grow(&mut memory, planned.names[number as usize].len() + 1);
            assert_eq!(memory.ask(&Call::Read), (0, number));
        }
        assert_eq!(memory.kept_names(), planned.names);
    }
}

/// Exactly the text and the entry that one name wants; rows by the most it can have.
fn grow(memory: &mut Memory, text: usize) {
    memory.text.resize(memory.text.get().len() + text, 0);
    memory.names.resize(memory.names.get().len() + 5, 0);
    memory.rows.resize(memory.rows.get().len() + 5 * 127, 0);
}

/// Demand 3: claims in any order, between reads, on names read and not yet read.
#[test]
fn claims_between_reads() {
    for seed in 0..300 {
        let mut random = Random::new(seed);
        let planned = planned(&mut random, 8);
        let count = planned.block.count;
        let mut memory = Memory::new(&planned.block, Room::ample(count as usize));
        memory.ask(&Call::Open { count });
        for kept in 0..=count {
            for number in 0..count {
                assert_claims(&mut memory, kept, number, &planned.names[number as usize]);
            }
            memory.ask(&Call::Read);
        }
    }
}

fn assert_claims(memory: &mut Memory, kept: u32, number: u32, name: &[u8]) {
    let mut answer = |claimed: &[u8]| {
        let claimed = claimed.to_vec();
        memory.ask(&Call::Claim { number, claimed })
    };
    if number >= kept {
        return assert_eq!(answer(name), (11, number));
    }
    assert_eq!(answer(name), (0, 1));
    assert_eq!(answer(&name[1..]), (0, 0));
    assert_eq!(answer(&name[..name.len() - 1]), (0, 0));
    assert_eq!(answer(&[name, b"\n"].concat()), (0, 0));
    let mut other = name.to_vec();
    other[name.len() / 2] ^= 1;
    assert_eq!(answer(&other), (0, 0));
}
