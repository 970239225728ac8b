//! Sentences of documents 01 and 002 about tokens and references that no bench case has, each
//! with the smallest block that shows it.

use second::cases::script::{Packed, Script};
use second::cases::{names_of, read_some, read_whole, refused};
use second::directory::{place, Stream};
use second::memory::Memory;
use second::refusal::DONE;

fn name_0() -> Script {
    Script::new().diff(0)
}

/// The names of a block that reads to the end, and the memory afterwards.
fn read(block: &Packed) -> (Vec<String>, Memory) {
    let (answer, memory) = read_whole(block);
    assert_eq!(answer, (DONE, block.count));
    (memory.kept_texts(), memory)
}

/// "MATCH repeats the resolved value", and on a MATCH "it recurses".
#[test]
fn a_match_on_a_delta_adds_nothing() {
    let first = name_0().digits(5).digits0(7, 3).end();
    let stepped = first.diff(1).ddelta(3).ddelta0(4).end();
    let matched = stepped.diff(1).matched().matched().end();
    let again = matched.diff(1).matched().matched().end();
    assert_eq!(names_of(&again), ["5007", "8011", "8011", "8011"]);
}

/// "An earlier row made by DDELTA counts as DIGITS, one made by DDELTA0 as DIGITS0."
#[test]
fn a_delta_on_a_delta() {
    let first = name_0().digits(5).digits0(7, 3).end();
    let second = first.diff(1).ddelta(255).ddelta0(255).end();
    let third = second.diff(1).ddelta(255).ddelta0(255).end();
    let (all, memory) = read(&third.packed());
    assert_eq!(all, ["5007", "260262", "515517"]);
    assert_eq!(memory.row(4), [7, 515, 0, 12, 3]);
    assert_eq!(memory.row(5), [4, 517, 3, 15, 3]);
}

/// A DUP's rows are the earlier name's, which may be a DUP's; text and distance are its own.
#[test]
fn duplicates_of_duplicates() {
    let first = name_0().string(b"ab").digits(41).end();
    let chain = first.dup(1).dup(2).dup(1).dup(3);
    let script = chain.diff(1).matched().ddelta(1).end().dup(1);
    let (all, memory) = read(&script.packed());
    assert_eq!(all[..5], ["ab41"; 5]);
    assert_eq!(all[5..], ["ab42"; 2]);
    let entries: Vec<[u32; 5]> = (0..7).map(|name| memory.entry(name).numbers()).collect();
    for (name, distance) in [(1, 1), (2, 2), (3, 1), (4, 3)] {
        assert_eq!(entries[name], [5 * name as u32, 4, 0, 2, distance]);
    }
    assert_eq!(entries[5], [25, 4, 2, 2, 1]);
    assert_eq!(entries[6], [30, 4, 2, 2, 1]);
    assert_eq!(memory.state_numbers(), [7, 7, 35, 4]);
}

#[test]
fn a_long_chain_of_duplicates() {
    let script = (1..=2_000).fold(name_0().digits(9).end(), |script, _| script.dup(1));
    let last = script.clone().diff(2_001).ddelta(1).end().dup(2_002);
    let (all, memory) = read(&last.packed());
    assert!(all[..2_001].iter().all(|name| name == "9"));
    assert_eq!(all[2_001..], ["10", "9"]);
    assert_eq!(memory.entry(2_002).numbers(), [4_005, 1, 0, 1, 2_002]);
    assert_eq!(refused(&script.dup(2_002)), (4, 2_001));
}

/// Tokens are never split again: a STRING of digits is matched whole and takes no delta.
#[test]
fn strings_of_digits_stay_strings() {
    let first = name_0().string(b"12").string(b"a1").end();
    let second = first.clone().diff(1).matched().matched().digits(7).end();
    let (all, memory) = read(&second.packed());
    assert_eq!(all, ["12a1", "12a17"]);
    assert_eq!(memory.row(2), [1, 0, 0, 5, 2]);
    assert_eq!(memory.row(4), [7, 7, 0, 9, 1]);
    for script in [first.clone().diff(1).ddelta(1), first.diff(1).ddelta0(1)] {
        assert_eq!(refused(&script), (5, 1));
    }
}

/// Reading takes every number below 2^32; "9 digits" binds the writer.
#[test]
fn numbers_of_ten_digits() {
    let first = name_0().digits(4_294_967_040).digits0(4_294_967_040, 10);
    let second = first.end().diff(1).ddelta(255).ddelta0(255).end();
    let third = second.clone().diff(1).matched().matched().end();
    let (low, high) = ("42949670404294967040", "42949672954294967295");
    assert_eq!(names_of(&third), [low, high, high]);
    assert_eq!(refused(&second.clone().diff(1).ddelta(1)), (6, 2));
    assert_eq!(refused(&second.diff(1).matched().ddelta0(1)), (6, 2));
}

/// "Larger values .. will require multiple DIGITS tokens", "the minus sign as a CHAR or STRING".
#[test]
fn larger_and_negative_numbers() {
    let script = name_0()
        .char(b'-')
        .digits(18_446_744)
        .digits0(73_709_551, 9);
    let script = script.digits(615).end().diff(1).string(b"x-").digits(5);
    let all = names_of(&script.end());
    assert_eq!(all, ["-18446744073709551615", "x-5"]);
}

/// A name that grows past 254 bytes by what it leans on is 8 like any other.
#[test]
fn the_longest_name_stepped_and_matched() {
    let long = name_0().string(&[b'q'; 253]).digits(9).end();
    let matched = long.clone().diff(1).matched().matched();
    assert_eq!(refused(&long.diff(1).matched().ddelta(1)), (8, 1));
    assert_eq!(names_of(&matched.clone().string(b"").end())[1].len(), 254);
    assert_eq!(refused(&matched.char(b'q')), (8, 1));
}

/// Spans may overlap: each has its own cursor, and a byte means what its span makes of it.
#[test]
fn spans_over_the_same_bytes() {
    let mut block = Script::new().packed();
    block.bytes = vec![6, 0, 0, 0, 0, 7, 2, 14, b'z'];
    block.count = 1;
    let mut bound = |position, stream, start, end| {
        let at = 2 * place(position, stream);
        block.directory[at..at + 2].copy_from_slice(&[start, end]);
    };
    bound(0, Stream::Type, 0, 1);
    bound(0, Stream::Diff, 1, 5);
    // Position 1 prints the bytes of the distance, position 3 the byte of position 2.
    bound(1, Stream::Type, 5, 6);
    bound(1, Stream::Digits, 1, 5);
    for position in [2, 3] {
        bound(position, Stream::Type, 6, 7);
        bound(position, Stream::Char, 8, 9);
    }
    bound(4, Stream::Type, 7, 8);
    assert_eq!(read(&block).0, ["0zz"]);
    // A text that goes on in the next span: over its type, then to a zero byte behind that.
    let mut block = name_0().kind(1).value(Stream::String, b"ab").end().packed();
    let at = 2 * place(1, Stream::String);
    block.bytes.push(0);
    block.directory[at + 1] += 1;
    assert_eq!(read_whole(&block).0, (2, 0));
    block.directory[at + 1] += 1;
    assert_eq!(read_whole(&block).0, (8, 0));
}

/// All positions used, up to END at position 128, matched and stepped in the next name.
#[test]
fn end_at_position_128_of_a_name_that_leans() {
    let full = (1..128).fold(name_0(), |script, _| script.digits(1)).end();
    let lean = (1..127).fold(full.diff(1), |script, _| script.matched());
    let whole = lean.clone().ddelta(1).end();
    assert_eq!(names_of(&whole), ["1".repeat(127), "1".repeat(126) + "2"]);
    assert_eq!(refused(&lean.clone().ddelta(1).matched()), (7, 1));
    assert_eq!(refused(&lean.ddelta(1).char(b'c')), (7, 1));
}

/// A read moves the cursors of the spans its name has bytes in, past those bytes and no further.
#[test]
fn cursors_move_past_one_name() {
    let script = name_0().string(b"ab").end().diff(1).string(b"c").end();
    let block = script.packed();
    let [before, after] = [1, 2].map(|reads| read_some(&block, reads));
    for (position, stream, moved) in [
        (0, Stream::Type, 1),
        (0, Stream::Diff, 4),
        (1, Stream::Type, 1),
        (1, Stream::String, 2),
        (2, Stream::Type, 1),
    ] {
        let at = place(position, stream);
        let [old, new] = [&before, &after].map(|memory| memory.cursors.get()[at]);
        assert_eq!(new - old, moved, "{position} {stream:?}");
    }
    let moved = before.cursors.get().iter().zip(after.cursors.get());
    assert_eq!(moved.filter(|(old, new)| old != new).count(), 5);
}
