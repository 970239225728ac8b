//! C-14: letters make a run, every other byte stands alone.

use second::cases::script::Script;
use second::cases::{assert_given_back, read_whole, write_whole};
use second::listing::listing;
use second::memory::Memory;
use second::refusal::DONE;

fn name_0() -> Script {
    Script::new().diff(0)
}

/// A CHAR for each byte.
fn chars(script: Script, bytes: &[u8]) -> Script {
    bytes.iter().fold(script, |script, byte| script.char(*byte))
}

/// What is written of the input is the script's block, byte for byte, of so many bytes, and reads back.
fn assert_written(input: &[u8], script: &Script, total: u32) -> Memory {
    let block = script.packed();
    let (answer, memory) = write_whole(input, block.count as usize);
    assert_eq!(answer, (0, total), "{}", String::from_utf8_lossy(input));
    assert_eq!(memory.total_numbers(), [block.count, total]);
    assert_eq!(memory.bytes.get()[..total as usize], block.bytes);
    assert_eq!(memory.directory.get(), block.directory);
    assert_eq!(assert_given_back(input, &memory), 2);
    memory
}

fn assert_name(name: &[u8], script: Script, total: u32) -> Memory {
    assert_written(&[name, b"\n"].concat(), &script.end(), total)
}

#[test]
fn letters_of_both_cases_make_one_run() {
    assert_name(b"aZAz", name_0().string(b"aZAz"), 12);
    let letters: Vec<u8> = (b'A'..=b'Z').chain(b'a'..=b'z').collect();
    assert_name(&letters, name_0().string(&letters), 60);
    for letter in letters {
        assert_name(&[letter], name_0().char(letter), 8);
        assert_name(&[letter, b'q'], name_0().string(&[letter, b'q']), 10);
    }
}

/// Neither the same byte twice nor two of them make a run, whatever stands beside them.
#[test]
fn every_other_byte_stands_alone() {
    assert_name(b"__::", chars(name_0(), b"__::"), 14);
    let all = (33..=126_u8).filter(|byte| *byte != 64);
    for byte in all.filter(|byte| !byte.is_ascii_alphanumeric()) {
        let twice = [byte, byte];
        assert_name(&twice, chars(name_0(), &twice), 10);
        assert_name(&[b'a', byte], chars(name_0(), &[b'a', byte]), 10);
        assert_name(&[byte, b'Z'], chars(name_0(), &[byte, b'Z']), 10);
        let digits = name_0().digits(1).char(byte).digits(2);
        assert_name(&[b'1', byte, b'2'], digits, 18);
    }
}

#[test]
fn bytes_next_to_the_ranges() {
    assert_name(b"A[a`z{Z?", chars(name_0(), b"A[a`z{Z?"), 22);
    let script = name_0().char(b'/').digits0(0, 1).char(b':').digits(9);
    assert_name(b"/0:9!~", chars(script, b"!~"), 25);
}

#[test]
fn a_b_byte_for_byte() {
    let memory = assert_name(b"A_B", chars(name_0(), b"A_B"), 12);
    let bytes = [6, 0, 0, 0, 0, 2, 0x41, 2, 0x5f, 2, 0x42, 0x0e];
    assert_eq!(memory.bytes.get()[..12], bytes);
    let script = name_0().string(b"ab").char(b'_').char(b'c');
    let script = script.digits(12).string(b"Zz");
    assert_name(b"ab_c12Zz", script, 23);
}

/// All that remains at position 127 is one CHAR or STRING, of whatever classes; it isn't so at 126.
#[test]
fn the_rest_at_position_127() {
    let begun = |count| chars(name_0(), &vec![b'_'; count]);
    let name = |rest: &[u8]| [&[b'_'; 126][..], rest].concat();
    assert_name(&name(b""), begun(126), 258);
    assert_name(&name(b"_"), begun(127), 260);
    assert_name(&name(b"__"), begun(126).string(b"__"), 262);
    assert_name(&name(b"a_1"), begun(126).string(b"a_1"), 263);
    assert_name(&name(b"7"), begun(126).char(b'7'), 260);
    assert_name(&name(b"1234567890"), begun(126).string(b"1234567890"), 270);
    let longest = begun(126).string(&[b'_'; 128]);
    assert_name(&[b'_'; 254], longest, 388);
    assert_name(&name(b"")[1..], begun(125), 256);
    let at_126 = [&[b'_'; 125][..], b"7a"].concat();
    assert_name(&at_126, begun(125).digits(7).char(b'a'), 263);
    let at_126 = [&[b'_'; 125][..], b"abc-d"].concat();
    assert_name(&at_126, begun(125).string(b"abc").string(b"-d"), 265);
}

/// MATCH and deltas are chosen as before.
#[test]
fn names_that_lean() {
    let first = name_0().string(b"ab").char(b'_').char(b'c').char(b':');
    let second = first.digits(1).end().diff(1).matched().matched();
    let second = second.char(b'd').matched().ddelta(1).end();
    assert_written(b"ab_c:1\nab_d:2\n", &second, 34);
    let first = chars(name_0(), b"A_B").end();
    assert_written(b"A_B\nA_B\n", &first.clone().dup(1), 17);
    let second = first.diff(1).matched().matched().string(b"BC").end();
    assert_written(b"A_B\nA_BC\n", &second, 24);
}

#[test]
fn the_listing_follows() {
    let listed = |input: &[u8]| String::from_utf8(listing(input)).unwrap();
    let expected = "0 DIFF 0 CHAR A CHAR _ CHAR B END\n1 names 12 bytes\n";
    assert_eq!(listed(b"A_B\n"), expected);
    let expected = "\
0 DIFF 0 STRING ab CHAR _ CHAR c CHAR : DIGITS 1 END
1 DIFF 1 MATCH MATCH CHAR d MATCH DDELTA 1 END
2 names 34 bytes
";
    assert_eq!(listed(b"ab_c:1\nab_d:2\n"), expected);
}

/// STRING `A_B` of another writer is read, kept and matched as one row.
#[test]
fn reading_does_not_change() {
    let first = name_0().string(b"A_B").digits(1).end();
    let block = first.diff(1).matched().ddelta(1).end().packed();
    let (answer, memory) = read_whole(&block);
    assert_eq!(answer, (DONE, 2));
    assert_eq!(memory.kept_texts(), ["A_B1", "A_B2"]);
    assert_eq!(memory.state_numbers(), [2, 2, 10, 4]);
    assert_eq!(memory.row(0), [1, 0, 0, 0, 3]);
    assert_eq!(memory.row(2), [1, 0, 0, 5, 3]);
}

/// No byte of input is written as more than six: the most are taken by a lone 0, its byte 10 and
/// the name's beginning and end.
#[test]
fn six_bytes_for_one() {
    for name in [&b"0_0"[..], b"0", b"_", b"a", b"0_0_0_0_0", &[b'_'; 254]] {
        let input = [name, b"\n"].concat();
        let ((code, total), _) = write_whole(&input, 1);
        assert_eq!(code, 0);
        assert!(total as usize <= 6 * input.len());
    }
    let most = b"0_".repeat(63);
    let ((_, total), _) = write_whole(&[&most[..], b"\n"].concat(), 1);
    assert_eq!(total, 6 + 63 * (6 + 2));
}
