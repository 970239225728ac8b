//! The worked names of documents 002 and 000: their tokens as told there, read; and what the
//! writing rule makes of them, read back.

use second::cases::script::Script;
use second::cases::{assert_given_back, read_whole, write_whole};
use second::directory::{place, Stream};
use second::listing::listing;
use second::memory::{Call, Memory, Room};
use second::refusal::DONE;

const DRAFT: [&str; 3] = [
    "I17_08765:2:123:61541:01763#9",
    "I17_08765:2:123:1636:08611#9",
    "I17_08765:2:124:45613:16161#9",
];

const ANNEX: [&str; 2] = [
    "HS25_09827:2:2215:4133:00216#49",
    "HS25_09827:2:2227:15822:00246#49",
];

fn input(names: &[&str]) -> Vec<u8> {
    names
        .iter()
        .flat_map(|name| [name, "\n"].concat().into_bytes())
        .collect()
}

/// The draft's seven tokens of its first name.
fn draft_0() -> Script {
    let start = Script::new().diff(0).string(b"I17_08765:2:").digits(123);
    let middle = start.char(b':').digits(61_541).char(b':');
    middle.digits0(1_763, 5).string(b"#9").end()
}

/// Those of its third name, which matches and steps where the draft says so.
fn draft_2(before: Script, distance: u32) -> Script {
    let start = before.diff(distance).matched().ddelta(1).matched();
    let middle = start.digits(45_613).matched().digits(16_161);
    middle.matched().end()
}

#[test]
fn the_draft_s_tokens_read_as_its_names() {
    let second = draft_0().diff(1).matched().matched().matched();
    let second = second.digits(1_636).matched().digits0(8_611, 5);
    let third = draft_2(second.matched().end(), 1);
    let (answer, memory) = read_whole(&third.packed());
    assert_eq!(answer, (DONE, 3));
    assert_eq!(memory.kept_texts(), DRAFT);
    assert_eq!(memory.state_numbers()[3], 21);
}

/// The same names with the third set against the first.
#[test]
fn the_draft_s_names_at_a_distance_of_two() {
    let second = draft_0().diff(1).string(DRAFT[1].as_bytes()).end();
    let (answer, memory) = read_whole(&draft_2(second, 2).packed());
    assert_eq!(answer, (DONE, 3));
    assert_eq!(memory.kept_texts(), DRAFT);
    assert_eq!(memory.entry(2).distance, 2);
}

/// The annex's table: fourteen tokens and END for each of its two names.
fn annex() -> Script {
    let start = Script::new().diff(0).string(b"HS").digits(25).char(b'_');
    let start = start.digits0(9_827, 5).char(b':').digits(2).char(b':');
    let middle = start.digits(2_215).char(b':').digits(4_133).char(b':');
    let first = middle.digits0(216, 5).char(b'#').digits(49).end();
    let seven = (0..7).fold(first.diff(1), |script, _| script.matched());
    let middle = seven.ddelta(12).matched().digits(15_822).matched();
    middle.ddelta0(30).matched().matched().end()
}

#[test]
fn the_annex_s_tokens_read_as_its_names() {
    let (answer, memory) = read_whole(&annex().packed());
    assert_eq!(answer, (DONE, 2));
    assert_eq!(memory.kept_texts(), ANNEX);
}

/// The writing rule splits the annex's names just as the annex does.
#[test]
fn the_annex_s_streams_are_the_writing_rule_s() {
    let (answer, memory) = write_whole(&input(&ANNEX), 2);
    let block = annex().packed();
    assert_eq!(answer, (0, block.bytes.len() as u32));
    assert_eq!(memory.directory.get(), block.directory);
    assert_eq!(memory.bytes.get()[..block.bytes.len()], block.bytes);
}

#[test]
fn the_writing_rule_on_the_draft_s_names() {
    let out = String::from_utf8(listing(&input(&DRAFT))).unwrap();
    let expected = "\
0 DIFF 0 CHAR I DIGITS 17 CHAR _ DIGITS0 8765/5 CHAR : DIGITS 2 CHAR : DIGITS 123 CHAR : \
DIGITS 61541 CHAR : DIGITS0 1763/5 CHAR # DIGITS 9 END
1 DIFF 1 MATCH MATCH MATCH MATCH MATCH MATCH MATCH MATCH MATCH DIGITS 1636 MATCH \
DIGITS0 8611/5 MATCH MATCH END
2 DIFF 1 MATCH MATCH MATCH MATCH MATCH MATCH MATCH DDELTA 1 MATCH DIGITS 45613 MATCH \
DIGITS 16161 MATCH MATCH END
3 names 115 bytes
";
    assert_eq!(out, expected);
}

#[test]
fn both_documents_names_written_and_read_back() {
    for names in [&DRAFT[..], &ANNEX[..]] {
        let (written, mut memory) = write_whole(&input(names), names.len());
        assert_eq!(written.0, 0);
        let count = names.len() as u32;
        let answer = memory.ask(&Call::ReadBlock { count });
        assert_eq!(answer, (DONE, count));
        assert_eq!(memory.kept_texts(), names);
        assert_eq!(assert_given_back(&input(names), &memory), 2);
    }
}

/// What document 01's own example keeps, number by number.
#[test]
fn the_paper_s_example_in_all_tables() {
    let names = ["run7:0098", "run7:0099", "run7:0100", "run7:0100"];
    let (written, mut memory) = write_whole(&input(&names), 4);
    assert_eq!(written, (0, 51));
    let answer = memory.ask(&Call::ReadBlock { count: 4 });
    assert_eq!(answer, (DONE, 4));
    assert_eq!(memory.state_numbers(), [4, 4, 40, 12]);
    let entry = |number| memory.entry(number).numbers();
    assert_eq!(entry(0), [0, 9, 0, 4, 0]);
    assert_eq!(entry(1), [10, 9, 4, 4, 1]);
    assert_eq!(entry(2), [20, 9, 8, 4, 1]);
    assert_eq!(entry(3), [30, 9, 8, 4, 1]);
    assert_eq!(memory.row(0), [1, 0, 0, 0, 3]);
    assert_eq!(memory.row(1), [7, 7, 0, 3, 1]);
    assert_eq!(memory.row(2), [2, 0, 0, 4, 1]);
    assert_eq!(memory.row(3), [4, 98, 4, 5, 4]);
    assert_eq!(memory.row(7), [4, 99, 4, 15, 4]);
    assert_eq!(memory.row(11), [4, 100, 4, 25, 4]);
    assert_eq!(
        &memory.text.get()[..40],
        b"run7:0098\nrun7:0099\nrun7:0100\nrun7:0100\n"
    );
    let end = place(0, Stream::Diff);
    assert_eq!(memory.directory.get()[2 * end..2 * end + 2], [8, 20]);
    assert_eq!(memory.cursors.get()[end], 20);
    assert_eq!(assert_given_back(&input(&names), &memory), 2);
}

/// Empty STRINGs keep rows at the running offset, the last one at the name's byte 10.
#[test]
fn rows_of_empty_strings() {
    let script = Script::new()
        .diff(0)
        .string(b"")
        .char(b'x')
        .string(b"")
        .end();
    let block = script.diff(1).matched().char(b'y').matched().end().packed();
    let mut memory = Memory::new(&block, Room::ample(2));
    let answer = memory.ask(&Call::ReadBlock { count: 2 });
    assert_eq!(answer, (DONE, 2));
    assert_eq!(memory.row(0), [1, 0, 0, 0, 0]);
    assert_eq!(memory.row(2), [1, 0, 0, 1, 0]);
    assert_eq!(memory.row(3), [1, 0, 0, 2, 0]);
    assert_eq!(memory.row(5), [1, 0, 0, 3, 0]);
}
