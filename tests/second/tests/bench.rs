//! The bench cases of document 01, those marked P and the others.

use second::cases::script::Script;
use second::cases::{assert_given_back, names_of, read_whole, refused, write_whole};
use second::digits::{fits, print_padded};
use second::listing::listing;
use second::refusal::{DONE, NO_NAME};

/// The listing, whose total is that of the call that writes.
fn listed(input: &str) -> String {
    let (answer, _) = write_whole(input.as_bytes(), 0);
    let listed = String::from_utf8(listing(input.as_bytes())).unwrap();
    assert_eq!(answer.0, 0);
    assert!(listed.ends_with(&format!(" names {} bytes\n", answer.1)));
    listed
}

#[test]
fn p_number_123_at_width_5() {
    assert_eq!(print_padded(123, 5).unwrap(), b"00123");
    assert_eq!(
        names_of(&Script::new().diff(0).digits0(123, 5).end()),
        ["00123"]
    );
}

#[test]
fn p_number_0_at_widths_1_and_0() {
    assert_eq!(names_of(&Script::new().diff(0).digits0(0, 1).end()), ["0"]);
    assert_eq!(refused(&Script::new().diff(0).digits0(0, 0).end()), (6, 0));
    assert!(!fits(0, 0));
}

#[test]
fn p_width_2_takes_99_and_not_123() {
    assert_eq!(
        names_of(&Script::new().diff(0).digits0(99, 2).end()),
        ["99"]
    );
    assert_eq!(
        refused(&Script::new().diff(0).digits0(123, 2).end()),
        (6, 0)
    );
}

#[test]
fn p_the_largest_number_plus_0_and_plus_1() {
    let first = Script::new().diff(0).digits(4_294_967_295).end();
    let passes = first.clone().diff(1).ddelta(0).end();
    assert_eq!(names_of(&passes), ["4294967295", "4294967295"]);
    assert_eq!(refused(&first.diff(1).ddelta(1).end()), (6, 1));
}

#[test]
fn p_99_plus_1_at_widths_2_and_3() {
    let wide = |width| {
        let first = Script::new().diff(0).digits0(99, width).end();
        first.diff(1).ddelta0(1).end()
    };
    assert_eq!(refused(&wide(2)), (6, 1));
    assert_eq!(names_of(&wide(3)), ["099", "100"]);
}

#[test]
fn p_name_0_with_a_distance() {
    assert_eq!(refused(&Script::new().dup(0)), (4, 0));
    assert_eq!(refused(&Script::new().dup(1)), (4, 0));
    assert_eq!(refused(&Script::new().diff(1).char(b'a').end()), (4, 0));
}

#[test]
fn p_name_0_with_match() {
    assert_eq!(refused(&Script::new().diff(0).matched().end()), (5, 0));
}

#[test]
fn p_name_3_with_distances_3_and_4() {
    let three = |distance| {
        let first = Script::new().diff(0).string(b"first").end();
        let second = first.diff(1).string(b"second").end();
        second.dup(1).diff(distance).matched().end()
    };
    assert_eq!(names_of(&three(3)), ["first", "second", "second", "first"]);
    assert_eq!(refused(&three(4)), (4, 3));
}

#[test]
fn p_end_at_position_1() {
    assert_eq!(refused(&Script::new().diff(0).end()), (8, 0));
}

#[test]
fn p_bytes_around_the_at_sign() {
    let one = |byte| Script::new().diff(0).char(byte).end();
    assert_eq!(names_of(&one(b'?')), ["?"]);
    assert_eq!(names_of(&one(b'A')), ["A"]);
    assert_eq!(refused(&one(b'@')), (8, 0));
    assert_eq!(refused(&one(b' ')), (8, 0));
}

#[test]
fn p_ten_digits_written() {
    let expected = "0 DIFF 0 DIGITS 123456789 DIGITS0 0/1 END\n1 names 17 bytes\n";
    assert_eq!(listed("1234567890\n"), expected);
}

#[test]
fn p_steps_of_255_and_256_and_downwards() {
    assert!(listed("1\n256\n").contains("\n1 DIFF 1 DDELTA 255 END\n"));
    assert!(listed("1\n257\n").contains("\n1 DIFF 1 DIGITS 257 END\n"));
    assert!(listed("10\n9\n").contains("\n1 DIFF 1 DIGITS 9 END\n"));
}

#[test]
fn names_of_254_and_255_bytes() {
    let long = |length| Script::new().diff(0).string(&vec![b'q'; length]).end();
    assert_eq!(names_of(&long(254)), ["q".repeat(254)]);
    assert_eq!(refused(&long(255)), (8, 0));
    let input = |length| [vec![b'q'; length], vec![b'\n']].concat();
    assert_eq!(write_whole(&input(254), 1).0 .0, 0);
    assert_eq!(write_whole(&input(255), 1).0, (8, 0));
}

#[test]
fn position_128_takes_end_alone() {
    let full = |start: Script| (1..128).fold(start, |script, _| script.char(b'c'));
    let script = full(Script::new().diff(0));
    assert_eq!(names_of(&script.clone().end()), ["c".repeat(127)]);
    assert_eq!(refused(&script.char(b'c')), (7, 0));
}

#[test]
fn no_names() {
    let (answer, memory) = write_whole(b"", 0);
    assert_eq!(answer, (0, 0));
    assert_eq!(memory.total_numbers(), [0, 0]);
    assert!(memory.directory.get().iter().all(|number| *number == 0));
    assert_eq!(assert_given_back(b"", &memory), 2);
    assert_eq!(read_whole(&Script::new().packed()).0, (DONE, 0));
}

#[test]
fn no_names_with_a_span_that_has_bytes() {
    let left = Script::new().put(3, second::directory::Stream::Dzlen, &[1]);
    assert_eq!(read_whole(&left.packed()).0, (10, NO_NAME));
}
