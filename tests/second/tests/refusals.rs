//! Each refusal of document 01 where its words apply, with the name that goes with it, and
//! which of two comes first.

use second::cases::script::{Packed, Script};
use second::cases::{read_some, read_whole, refused, write_whole};
use second::directory::{place, Stream};
use second::memory::{Call, Memory};
use second::refusal::{DONE, NO_NAME};

/// The answer of one more read; a refused one alters nothing.
fn next_read(memory: &mut Memory) -> (u32, u32) {
    let before = memory.clone();
    let answer = memory.ask(&Call::Read);
    if answer.0 != 0 {
        assert!(*memory == before, "{:?}", before.difference(memory));
    }
    answer
}

fn claim(memory: &Memory, number: u32, claimed: &[u8]) -> (u32, u32) {
    let claimed = claimed.to_vec();
    memory.clone().ask(&Call::Claim { number, claimed })
}

fn name_0() -> Script {
    Script::new().diff(0)
}

/// "ab", "12" and "03" as STRING, DIGITS and DIGITS0 of name 0, then name 1 begun.
fn name_1() -> Script {
    name_0()
        .string(b"ab")
        .digits(12)
        .digits0(3, 2)
        .end()
        .diff(1)
}

#[test]
fn one_for_lengths_starts_and_ends() {
    let block = name_0().char(b'a').end().packed();
    let honest = read_some(&block, 0);
    let changes: [fn(&mut Memory); 6] = [
        |memory| memory.directory.resize(2_579, 0),
        |memory| memory.directory.resize(2_582, 0),
        |memory| memory.cursors.resize(1_289, 0),
        |memory| memory.cursors.resize(1_291, 0),
        |memory| memory.directory.get_mut()[2_578] = u32::MAX,
        |memory| memory.bytes.resize(memory.bytes.get().len() - 1, 0),
    ];
    for change in changes {
        let mut memory = honest.clone();
        change(&mut memory);
        // 1 comes before 13: the counts are bad as well.
        memory.state.get_mut()[1] = u32::MAX;
        assert_eq!(next_read(&mut memory), (1, NO_NAME));
        let opened = memory.ask(&Call::Open { count: 65_537 });
        assert_eq!(opened, (1, NO_NAME));
    }
}

#[test]
fn two_for_every_value_cut_short() {
    let distance = Script::new().lead(6).put(0, Stream::Diff, &[0, 0, 0]);
    let digits0 = name_0().kind(4).value(Stream::Digits0, &[1, 0, 0, 0]);
    let width = name_0().kind(4).value(Stream::Dzlen, &[0]);
    let unended = name_0().kind(1).value(Stream::String, b"@@@");
    let long = name_0().kind(1).value(Stream::String, &[b'q'; 400]);
    for script in [distance, digits0, width, unended, long] {
        assert_eq!(refused(&script), (2, 0));
    }
    assert_eq!(refused(&name_0()), (2, 0));
    assert_eq!(refused(&name_0().kind(2)), (2, 0));
    assert_eq!(
        refused(&name_0().kind(7).value(Stream::Digits, &[1, 2, 3])),
        (2, 0)
    );
}

#[test]
fn two_where_a_name_and_its_type_are_missing() {
    let mut block = name_0().char(b'a').end().packed();
    block.count = 2;
    assert_eq!(read_whole(&block).0, (2, 1));
    // DUP without a distance: 2 though no distance would do for name 0.
    assert_eq!(refused(&Script::new().lead(5)), (2, 0));
}

#[test]
fn two_for_deltas_without_their_byte_but_five_first() {
    let one = name_1().matched();
    let two = one.clone().matched();
    assert_eq!(refused(&two), (2, 1));
    assert_eq!(refused(&one.clone().kind(11)), (2, 1));
    assert_eq!(refused(&two.clone().kind(12)), (2, 1));
    assert_eq!(refused(&one.kind(12)), (5, 1));
    assert_eq!(refused(&two.kind(11)), (5, 1));
}

#[test]
fn a_zero_behind_the_span_doesn_t_end_a_text() {
    let script = name_0().kind(1).value(Stream::String, b"text");
    let mut block = script.packed();
    block.bytes.push(0);
    assert_eq!(read_whole(&block).0, (2, 0));
}

#[test]
fn three_for_types_outside_the_tables() {
    for number in (0..=255).filter(|number| ![5, 6].contains(number)) {
        assert_eq!(refused(&Script::new().lead(number)), (3, 0));
    }
    let table = [1, 2, 4, 7, 11, 12, 13, 14];
    for number in (0..=255).filter(|number| !table.contains(number)) {
        assert_eq!(refused(&name_0().kind(number)), (3, 0));
        assert_eq!(refused(&full().kind(number)), (3, 0));
    }
}

/// 127 tokens, so that the next type is at position 128.
fn full() -> Script {
    (1..128).fold(name_0(), |script, _| script.char(b'c'))
}

#[test]
fn seven_before_five_and_two() {
    for number in [1, 2, 4, 7, 11, 12, 13] {
        assert_eq!(refused(&full().kind(number)), (7, 0));
    }
    assert_eq!(refused(&full()), (2, 0));
}

#[test]
fn four_for_distances() {
    let first = name_0().char(b'a').end();
    for distance in [2, 1 + (1 << 24), u32::MAX] {
        assert_eq!(refused(&first.clone().dup(distance)), (4, 1));
        assert_eq!(refused(&first.clone().diff(distance)), (4, 1));
    }
    assert_eq!(refused(&first.clone().dup(0)), (4, 1));
    // DIFF 0 is a distance that every name may have; what is missing is its first type.
    assert_eq!(refused(&first.diff(0)), (2, 1));
}

#[test]
fn five_without_a_fitting_row() {
    let matched = |count| (0..count).fold(name_1(), |script, _| script.matched());
    assert_eq!(refused(&matched(4)), (5, 1));
    assert_eq!(refused(&name_0().ddelta(1)), (5, 0));
    assert_eq!(refused(&name_0().ddelta0(1)), (5, 0));
    assert_eq!(refused(&name_1().ddelta(1)), (5, 1));
    assert_eq!(refused(&name_1().ddelta0(1)), (5, 1));
    assert_eq!(refused(&matched(1).ddelta0(1)), (5, 1));
    assert_eq!(refused(&matched(2).ddelta(1)), (5, 1));
    let char_row = name_0().char(b'7').end().diff(1);
    assert_eq!(refused(&char_row.ddelta(1)), (5, 1));
}

/// The row is that of the name so far back, not of the name just before.
#[test]
fn the_distance_decides_the_row() {
    let two = name_0().digits(5).end().diff(1).string(b"5").end();
    let back = two.clone().diff(2).ddelta(4).end();
    let (answer, memory) = read_whole(&back.packed());
    assert_eq!(answer, (DONE, 3));
    assert_eq!(memory.kept_names(), [b"5", b"5", b"9"]);
    assert_eq!(refused(&two.diff(1).ddelta(4)), (5, 2));
}

#[test]
fn six_before_eight_and_after_two() {
    let long = || name_0().string(&[b'q'; 254]);
    assert_eq!(refused(&long().digits0(1, 0)), (6, 0));
    assert_eq!(refused(&long().digits0(100, 2)), (6, 0));
    assert_eq!(refused(&long().digits0(1, 1)), (8, 0));
    assert_eq!(refused(&name_0().digits0(u32::MAX, 9)), (6, 0));
    assert_eq!(refused(&name_0().digits0(0, 255)), (8, 0));
    let wide = name_0().digits0(u32::MAX, 254).end();
    assert_eq!(read_whole(&wide.packed()).0, (DONE, 1));
    let largest = name_0().digits0(u32::MAX, 10).end().diff(1);
    assert_eq!(refused(&largest.clone().ddelta0(1)), (6, 1));
    assert_eq!(read_whole(&largest.ddelta0(0).end().packed()).0, (DONE, 2));
}

#[test]
fn eight_of_one_token_before_anything_of_the_next() {
    assert_eq!(refused(&name_0().char(b'@').kind(0)), (8, 0));
    assert_eq!(refused(&name_0().string(b"a b")), (8, 0));
    let empty = (1..128).fold(name_0(), |script, _| script.string(b""));
    assert_eq!(refused(&empty.end()), (8, 0));
    let long = name_0().string(&[b'q'; 250]).digits(12_345);
    assert_eq!(refused(&long), (8, 0));
}

#[test]
fn nine_last_and_for_each_kind_of_room() {
    let script = name_0().string(b"ab").digits(7).end();
    let changes: [fn(&mut Memory); 3] = [
        |memory| memory.text.resize(3, 0),
        |memory| memory.names.resize(4, 0),
        |memory| memory.rows.resize(9, 0),
    ];
    let exact: [fn(&mut Memory); 3] = [
        |memory| memory.text.resize(4, 0),
        |memory| memory.names.resize(5, 0),
        |memory| memory.rows.resize(10, 0),
    ];
    for (change, exact) in changes.into_iter().zip(exact) {
        let mut memory = read_some(&script.packed(), 0);
        change(&mut memory);
        assert_eq!(next_read(&mut memory), (9, 0));
        exact(&mut memory);
        assert_eq!(next_read(&mut memory), (0, 0));
        assert_eq!(next_read(&mut memory), (DONE, 1));
        let bad = name_0().string(b"ab").char(b'@').packed();
        let mut memory = read_some(&bad, 0);
        change(&mut memory);
        assert_eq!(next_read(&mut memory), (8, 0));
    }
}

#[test]
fn ten_where_any_span_has_bytes_left() {
    let script = || name_0().char(b'a').end();
    for (position, stream) in [
        (0, Stream::String),
        (5, Stream::Dup),
        (128, Stream::Ddelta0),
    ] {
        let left = script().put(position, stream, &[9]);
        assert_eq!(refused(&left), (10, NO_NAME));
    }
    // A span over bytes that another has read still has its own cursor.
    let mut block = script().packed();
    block.directory[2 * place(7, Stream::Dzlen) + 1] = 1;
    block.directory[2 * place(7, Stream::Dzlen)] = 0;
    assert_eq!(read_whole(&block).0, (10, NO_NAME));
    // Bytes in no span mean nothing.
    let mut block = script().packed();
    block.bytes.push(9);
    assert_eq!(read_whole(&block).0, (DONE, 1));
}

#[test]
fn twelve_for_counts() {
    let mut block = Script::new().packed();
    block.count = 65_537;
    assert_eq!(read_whole(&block).0, (12, NO_NAME));
    let mut memory = read_some(&Script::new().packed(), 0);
    let opened = memory.ask(&Call::Open { count: 65_536 });
    assert_eq!(opened, (0, 0));
    assert_eq!(memory.state_numbers(), [65_536, 0, 0, 0]);
}

/// Three names kept of a block of five, to be made hostile.
fn kept() -> Memory {
    let block = name_0().string(b"ab").digits(12).digits0(3, 2).end();
    let block = block.diff(1).matched().ddelta(4).matched().end().dup(2);
    let block = block.diff(1).matched().matched().matched().end().dup(2);
    let memory = read_some(&block.packed(), 3);
    assert_eq!(memory.kept_names(), [b"ab1203", b"ab1603", b"ab1203"]);
    memory
}

fn changed(table: fn(&mut Memory) -> &mut [u32], at: usize, number: u32) -> Memory {
    let mut memory = kept();
    table(&mut memory)[at] = number;
    memory
}

fn state(memory: &mut Memory) -> &mut [u32] {
    memory.state.get_mut()
}

fn names(memory: &mut Memory) -> &mut [u32] {
    memory.names.get_mut()
}

fn rows(memory: &mut Memory) -> &mut [u32] {
    memory.rows.get_mut()
}

#[test]
fn thirteen_for_the_counts() {
    assert_eq!(kept().state_numbers(), [5, 3, 21, 6]);
    let bad = [
        (0, 2),
        (0, 65_537),
        (1, 6),
        (2, 766),
        (2, u32::MAX),
        (3, 382),
        (3, u32::MAX),
    ];
    for (at, number) in bad {
        let mut memory = changed(state, at, number);
        assert_eq!(next_read(&mut memory), (13, NO_NAME), "state {at} {number}");
    }
    for (at, number) in [(2, 765), (3, 381), (0, 65_536)] {
        let mut memory = changed(state, at, number);
        assert_eq!(next_read(&mut memory), (0, 3), "state {at} {number}");
    }
    let lengths: [fn(&mut Memory); 3] = [
        |memory| memory.text.resize(20, 0),
        |memory| memory.names.resize(14, 0),
        |memory| memory.rows.resize(29, 0),
    ];
    for shorten in lengths {
        let mut memory = kept();
        shorten(&mut memory);
        assert_eq!(next_read(&mut memory), (13, NO_NAME));
    }
}

#[test]
fn thirteen_for_a_cursor_before_ten_and_done() {
    let mut memory = read_some(&name_0().char(b'a').end().packed(), 1);
    assert_eq!(next_read(&mut memory), (DONE, 1));
    let unused = place(99, Stream::Dzlen);
    memory.cursors.get_mut()[unused] += 1;
    assert_eq!(next_read(&mut memory), (13, NO_NAME));
    memory.cursors.get_mut()[unused] -= 1;
    let used = place(0, Stream::Diff);
    memory.cursors.get_mut()[used] -= 4;
    assert_eq!(next_read(&mut memory), (10, NO_NAME));
    memory.cursors.get_mut()[used] -= 1;
    assert_eq!(next_read(&mut memory), (13, NO_NAME));
}

/// Name 3 is DIFF 1, its earlier name is name 2, a DUP of name 0 with rows 0 to 2.
#[test]
fn thirteen_for_the_earlier_entry_carries_the_name_being_read() {
    let entry = 10;
    let bad = [
        (0, 16),
        (1, 0),
        (1, 8),
        (1, 255),
        (2, 4),
        (3, 0),
        (3, 7),
        (3, 128),
    ];
    for (at, number) in bad {
        let mut memory = changed(names, entry + at, number);
        assert_eq!(next_read(&mut memory), (13, 3), "entry {at} {number}");
    }
    for (at, number) in [(0, u32::MAX), (2, u32::MAX)] {
        let mut memory = changed(names, entry + at, number);
        assert_eq!(next_read(&mut memory), (13, 3), "entry {at} {number}");
    }
    for (at, number) in [(0, 15), (1, 7), (2, 3), (4, 99)] {
        let mut memory = changed(names, entry + at, number);
        assert_eq!(next_read(&mut memory), (0, 3), "entry {at} {number}");
    }
    // Other entries aren't looked at.
    let mut memory = changed(names, 6, u32::MAX);
    assert_eq!(next_read(&mut memory), (0, 3));
}

#[test]
fn thirteen_for_any_row_of_the_earlier_name() {
    let string = [(0, 0), (0, 3), (0, 5), (3, 20), (4, 22), (3, u32::MAX)];
    let digits = [(5, 8), (8, 20), (9, u32::MAX)];
    let digits0 = [(12, 0), (12, 255), (11, 100), (13, 22), (10, 2)];
    for (at, number) in string.into_iter().chain(digits).chain(digits0) {
        let mut memory = changed(rows, at, number);
        assert_eq!(next_read(&mut memory), (13, 3), "row number {at}, {number}");
    }
    // DUP uses none of them, yet 13 judges them; those of name 1 aren't its earlier name's.
    let mut memory = kept();
    assert_eq!(next_read(&mut memory), (0, 3));
    rows(&mut memory)[27] = 0;
    assert_eq!(next_read(&mut memory.clone()), (0, 4));
    rows(&mut memory)[12] = 0;
    assert_eq!(next_read(&mut memory), (13, 4));
}

#[test]
fn what_rows_don_t_use_isn_t_looked_at() {
    for (at, number) in [
        (1, u32::MAX),
        (2, 999),
        (7, 999),
        (9, 0),
        (3, 18),
        (12, 250),
    ] {
        let mut memory = changed(rows, at, number);
        assert_eq!(next_read(&mut memory), (0, 3), "row number {at}, {number}");
        assert_eq!(memory.row(6)[1..3], [0, 0]);
        assert_eq!(memory.row(7)[2], 0);
    }
}

/// MATCH of a text copies the row's bytes and judges them; of a number, it prints anew.
#[test]
fn a_match_of_a_hostile_text() {
    let mut memory = kept();
    memory.text.get_mut()[1] = b'@';
    memory.text.get_mut()[2] = b'@';
    assert_eq!(next_read(&mut memory), (8, 3));
    memory.text.get_mut()[1] = b'z';
    assert_eq!(next_read(&mut memory), (0, 3));
    assert_eq!(memory.kept_names()[3], b"az1203");
    // DUP copies the entry's text as it is.
    memory.text.get_mut()[8] = b'@';
    names(&mut memory)[5 * 2] = 7;
    assert_eq!(next_read(&mut memory), (0, 4));
    assert_eq!(memory.kept_names()[4], b"a@1603");
}

/// A text row may be longer than a name; then its MATCH is 8.
#[test]
fn a_match_of_a_text_that_is_too_long() {
    let mut memory = changed(state, 2, 765);
    rows(&mut memory)[3] = 0;
    rows(&mut memory)[4] = 400;
    memory.text.get_mut().fill(b'a');
    assert_eq!(next_read(&mut memory), (8, 3));
    rows(&mut memory)[4] = 250;
    assert_eq!(next_read(&mut memory), (0, 3));
}

#[test]
fn claims_are_refused_by_counts_number_and_entry() {
    let memory = kept();
    assert_eq!(claim(&memory, 1, b"ab1603"), (0, 1));
    for wrong in [
        &b"ab160"[..],
        b"ab16030",
        b"ab1603\n",
        b"",
        b"ab1203",
        b"@",
        &[b'a'; 300],
    ] {
        assert_eq!(claim(&memory, 1, wrong), (0, 0));
    }
    for number in [3, 4, 5, 6, u32::MAX] {
        assert_eq!(claim(&memory, number, b"ab1203"), (11, number));
    }
    for (at, number) in [(0, 2), (0, 65_537), (1, 6), (2, 766), (2, u32::MAX)] {
        let memory = changed(state, at, number);
        assert_eq!(claim(&memory, u32::MAX, b""), (13, NO_NAME));
    }
    for (at, number) in [(5, 16), (6, 0), (6, 255), (6, 15), (5, u32::MAX)] {
        let memory = changed(names, at, number);
        assert_eq!(claim(&memory, 1, b"ab1603"), (13, 1));
        assert_eq!(claim(&memory, 0, b"ab1203"), (0, 1));
        assert_eq!(claim(&memory, 3, b"ab1203"), (11, 3));
    }
}

#[test]
fn claims_judge_nothing_about_rows() {
    let mut memory = changed(state, 3, u32::MAX);
    names(&mut memory)[7] = u32::MAX;
    names(&mut memory)[8] = 0;
    memory.rows.resize(0, 0);
    memory.cursors.resize(0, 0);
    memory.directory.resize(3, 0);
    assert_eq!(claim(&memory, 1, b"ab1603"), (0, 1));
}

#[test]
fn writing_in_its_order() {
    let write = |input: &[u8], bytes: usize, directory: usize| {
        let mut memory = Memory::to_write(bytes, 0);
        memory.directory.resize(directory, 0);
        let before = memory.clone();
        let input = input.to_vec();
        let answer = memory.ask(&Call::Write { input });
        assert!(answer.0 == 0 || memory == before);
        answer
    };
    assert_eq!(write(b"a@\nb", 0, 2_579), (1, NO_NAME));
    assert_eq!(write(b"", 0, 2_581), (1, NO_NAME));
    assert_eq!(write(b"a@\nb", 0, 2_580), (12, NO_NAME));
    assert_eq!(write(b"ab\n@\n\n", 0, 2_580), (8, 1));
    assert_eq!(write(b"ab\n\n@\n", 0, 2_580), (8, 1));
    assert_eq!(write(b"ab\n", 8, 2_580), (9, NO_NAME));
    assert_eq!(write(b"ab\n", 9, 2_580), (9, NO_NAME));
    assert_eq!(write(b"ab\n", 10, 2_580), (0, 10));
    for byte in [0, 9, 13, 32, 64, 127, 128, 255] {
        assert_eq!(write(&[b'a', b'\n', byte, b'\n'], 99, 2_580), (8, 1));
    }
}

#[test]
fn writing_takes_65536_names() {
    let most = b"x\n".repeat(65_536);
    let (answer, memory) = write_whole(&most, 0);
    assert_eq!(answer, (0, 8 + 5 * 65_535));
    assert_eq!(memory.total_numbers(), [65_536, 8 + 5 * 65_535]);
    assert_eq!(write_whole(&b"@\n".repeat(65_537), 0).0, (12, NO_NAME));
    assert_eq!(write_whole(&b"@\n".repeat(65_536), 0).0, (8, 0));
    // Empty names: as many to a part of the input as there can be.
    assert_eq!(write_whole(&b"\n".repeat(65_537), 0).0, (12, NO_NAME));
    assert_eq!(write_whole(&b"\n".repeat(65_536), 0).0, (8, 0));
}

/// Refused at opening, a whole-block read changes nothing; later, the steps before stay.
#[test]
fn what_a_refused_whole_read_leaves() {
    let script = name_0().string(b"ab").end().diff(1).char(b'@');
    let block: Packed = script.packed();
    let (answer, memory) = read_whole(&block);
    assert_eq!(answer, (8, 1));
    assert!(memory == read_some(&block, 1));
    assert_eq!(memory.state_numbers(), [2, 1, 3, 1]);
    let mut refused = memory.clone();
    let again = refused.ask(&Call::ReadBlock { count: 65_537 });
    assert_eq!(again, (12, NO_NAME));
    assert!(refused == memory);
}
