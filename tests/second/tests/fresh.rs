//! C-11: later names that start without an earlier one.

use second::cases::script::Script;
use second::cases::{read_some, read_whole, refused, write_whole};
use second::directory::{place, Stream};
use second::listing::listing;
use second::memory::{Call, Memory};
use second::refusal::{DONE, NO_NAME};

/// What puts a token behind others.
type Put = fn(Script) -> Script;

fn name_0() -> Script {
    Script::new().diff(0)
}

/// `a`, then a name that starts afresh.
fn a_then_fresh() -> Script {
    name_0().char(b'a').end().diff(0)
}

/// All that is kept: the used text, the entries and the rows.
fn assert_keeps(memory: &Memory, text: &[u8], entries: &[[u32; 5]], rows: &[[u32; 5]]) {
    let lengths = [entries.len(), text.len(), rows.len()].map(|length| length as u32);
    assert_eq!(memory.state_numbers()[1..], lengths);
    assert_eq!(memory.text.get()[..text.len()], *text);
    assert_eq!(memory.names.get()[..5 * entries.len()], entries.concat());
    assert_eq!(memory.rows.get()[..5 * rows.len()], rows.concat());
}

/// A script's block, read to the end as a whole and name by name.
fn assert_reads_as(script: &Script, text: &[u8], entries: &[[u32; 5]], rows: &[[u32; 5]]) {
    let block = script.packed();
    let (answer, whole) = read_whole(&block);
    assert_eq!(answer, (DONE, block.count));
    assert_keeps(&whole, text, entries, rows);
    assert!(read_some(&block, block.count) == whole);
}

/// DUP 0, name 0 with DIFF 1 and a distance above the name's number are 4 as before, behind a
/// fresh start too; a distance cut short is 2.
#[test]
fn only_diff_0_changes() {
    assert_eq!(refused(&Script::new().dup(0)), (4, 0));
    assert_eq!(refused(&Script::new().diff(1)), (4, 0));
    let one = name_0().char(b'a').end();
    let two = a_then_fresh().char(b'b').end();
    for (number, script) in [(1, one), (2, two)] {
        assert_eq!(refused(&script.clone().dup(0)), (4, number));
        assert_eq!(refused(&script.clone().dup(number + 1)), (4, number));
        assert_eq!(refused(&script.clone().diff(number + 1)), (4, number));
        assert_eq!(refused(&script.clone().diff(0)), (2, number));
        let cut = script.lead(6).put(0, Stream::Diff, &[0, 0, 0]);
        assert_eq!(refused(&cut), (2, number));
    }
}

/// `a` read, name 1 to come, and the entry and the row of `a` all 2^32-1.
fn over_a_damaged_name(script: &Script) -> Memory {
    let mut memory = read_some(&script.packed(), 1);
    memory.names.get_mut()[..5].fill(u32::MAX);
    memory.rows.get_mut()[..5].fill(u32::MAX);
    memory
}

#[test]
fn a_damaged_name_before_is_not_judged() {
    let damaged = [u32::MAX; 5];
    let mut memory = over_a_damaged_name(&a_then_fresh().char(b'b').end());
    assert_eq!(memory.ask(&Call::Read), (0, 1));
    let (entries, rows) = ([damaged, [2, 1, 1, 1, 0]], [damaged, [2, 0, 0, 2, 1]]);
    assert_keeps(&memory, b"a\nb\n", &entries, &rows);
    // 5 is then the first that MATCH meets; with a distance of 1 it is 13.
    let mut memory = over_a_damaged_name(&a_then_fresh().matched().end());
    assert_eq!(memory.ask(&Call::Read), (5, 1));
    let leaning = name_0().char(b'a').end().diff(1).char(b'b').end();
    assert_eq!(over_a_damaged_name(&leaning).ask(&Call::Read), (13, 1));
}

#[test]
fn counts_and_cursors_still_meet_13() {
    let changes: [fn(&mut Memory); 4] = [
        |memory| memory.state.get_mut()[2] = 256,
        |memory| memory.state.get_mut()[3] = 128,
        |memory| memory.names.resize(4, 0),
        |memory| memory.cursors.get_mut()[place(0, Stream::Diff)] += 5,
    ];
    for change in changes {
        let mut memory = read_some(&a_then_fresh().char(b'b').end().packed(), 1);
        change(&mut memory);
        assert_eq!(memory.ask(&Call::Read), (13, NO_NAME));
    }
}

#[test]
fn match_in_a_fresh_name_is_5() {
    let script = name_0().char(b'a').char(b'b').end();
    let script = script.diff(0).char(b'c').matched().end();
    assert_eq!(refused(&script), (5, 1));
}

/// At every position that the name before has a fitting row for, and before 2; at position 128
/// it is 7, as in every name.
#[test]
fn tokens_that_lean_are_5_at_every_position() {
    let digits = (1..128).fold(name_0(), |script, _| script.digits(1)).end();
    let digits0 = (1..128).fold(name_0(), |script, _| script.digits0(1, 1));
    let tokens: [(u8, Script, Put); 3] = [
        (11, digits.clone(), |script| script.ddelta(1)),
        (12, digits0.end(), |script| script.ddelta0(1)),
        (13, digits, Script::matched),
    ];
    for (kind, before, put) in tokens {
        let mut fresh = before.diff(0);
        for _ in 1..128 {
            assert_eq!(refused(&fresh.clone().kind(kind)), (5, 1));
            assert_eq!(refused(&put(fresh.clone()).end()), (5, 1));
            fresh = fresh.char(b'c');
        }
        assert_eq!(refused(&fresh.kind(kind)), (7, 1));
    }
}

/// The name before a fresh one can be leaned on from behind it.
#[test]
fn a_name_that_leans_past_a_fresh_one() {
    let two = name_0().digits(5).end().diff(0).digits(100).end();
    let entries = [[0, 1, 0, 1, 0], [2, 3, 1, 1, 0], [6, 1, 2, 1, 2]];
    let rows = [[7, 5, 0, 0, 1], [7, 100, 0, 2, 3], [7, 6, 0, 6, 1]];
    let three = two.diff(2).ddelta(1).end();
    assert_reads_as(&three, b"5\n100\n6\n", &entries, &rows);
}

/// A fresh name can be leaned on, and copied, like any other.
#[test]
fn names_that_lean_on_a_fresh_one() {
    let two = name_0().digits(5).end().diff(0).digits(100).end();
    let entries = [
        [0, 1, 0, 1, 0],
        [2, 3, 1, 1, 0],
        [6, 3, 2, 1, 1],
        [10, 3, 1, 1, 2],
    ];
    let rows = [[7, 5, 0, 0, 1], [7, 100, 0, 2, 3], [7, 101, 0, 6, 3]];
    let four = two.diff(1).ddelta(1).end().dup(2);
    assert_reads_as(&four, b"5\n100\n101\n100\n", &entries, &rows);
}

#[test]
fn the_entry_keeps_distance_0() {
    let script = a_then_fresh().char(b'b').end();
    let entries = [[0, 1, 0, 1, 0], [2, 1, 1, 1, 0]];
    let rows = [[2, 0, 0, 0, 1], [2, 0, 0, 2, 1]];
    assert_reads_as(&script, b"a\nb\n", &entries, &rows);
}

/// Between two reads the caller puts the cursor of DIFF back on name 0's distance.
#[test]
fn a_distance_0_that_is_read_again() {
    let again = |script: Script| {
        let mut memory = read_some(&script.end().packed(), 1);
        memory.cursors.get_mut()[place(0, Stream::Diff)] -= 4;
        (memory.ask(&Call::Read), memory)
    };
    let leaning = || name_0().char(b'a').end().diff(1);
    assert_eq!(again(leaning().matched()).0, (5, 1));
    let (answer, memory) = again(leaning().char(b'b'));
    assert_eq!(answer, (0, 1));
    let entries = [[0, 1, 0, 1, 0], [2, 1, 1, 1, 0]];
    let rows = [[2, 0, 0, 0, 1], [2, 0, 0, 2, 1]];
    assert_keeps(&memory, b"a\nb\n", &entries, &rows);
}

#[test]
fn the_writer_starts_no_later_name_afresh() {
    let (answer, memory) = write_whole(b"a\nb\nb\n", 3);
    let script = name_0().char(b'a').end().diff(1).char(b'b').end().dup(1);
    let block = script.packed();
    assert_eq!(answer, (0, 21));
    assert_eq!(memory.total_numbers(), [3, 21]);
    assert_eq!(memory.bytes.get()[..21], block.bytes);
    assert_eq!(memory.directory.get(), block.directory);
    let listed = "0 DIFF 0 CHAR a END\n1 DIFF 1 CHAR b END\n2 DUP 1\n3 names 21 bytes\n";
    assert_eq!(listing(b"a\nb\nb\n"), listed.as_bytes());
}
