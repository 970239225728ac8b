//! The listing program.

use second::listing::listing;
use std::fs;
use std::io::Write;
use std::process::{Command, Stdio};

const INPUT: &[u8] = b"run7:0098\nrun7:0099\nrun7:0100\nrun7:0100\n";
const OUTPUT: &str = "\
0 DIFF 0 STRING run DIGITS 7 CHAR : DIGITS0 98/4 END
1 DIFF 1 MATCH MATCH MATCH DDELTA0 1 END
2 DIFF 1 MATCH MATCH MATCH DDELTA0 1 END
3 DUP 1
4 names 51 bytes
";

fn listed(input: &[u8]) -> String {
    String::from_utf8(listing(input)).unwrap()
}

/// The program itself, not its function; under the emulator where these tests run under one.
fn program() -> Command {
    let listing = env!("CARGO_BIN_EXE_listing");
    let runner = std::env::var("CARGO_TARGET_X86_64_UNKNOWN_LINUX_GNU_RUNNER").unwrap_or_default();
    let mut words = runner.split_whitespace().chain([listing]);
    let mut command = Command::new(words.next().unwrap_or(listing));
    command.args(words);
    command
}

fn printed(input: &[u8]) -> String {
    let mut program = program()
        .stdin(Stdio::piped())
        .stdout(Stdio::piped())
        .spawn()
        .unwrap();
    program.stdin.take().unwrap().write_all(input).unwrap();
    let output = program.wait_with_output().unwrap();
    assert!(output.status.success());
    String::from_utf8(output.stdout).unwrap()
}

#[test]
fn the_paper_s_listing() {
    assert_eq!(listed(INPUT), OUTPUT);
    assert_eq!(printed(INPUT), OUTPUT);
}

#[test]
fn empty_input() {
    assert_eq!(listed(b""), "0 names 0 bytes\n");
    assert_eq!(printed(b""), "0 names 0 bytes\n");
}

#[test]
fn refusals() {
    assert_eq!(listed(b"good\nba@d\n"), "refused 8 at 1\n");
    assert_eq!(listed(b"\n"), "refused 8 at 0\n");
    assert_eq!(listed(b"ba@d\nunended"), "refused 12\n");
    assert_eq!(listed(b"ten\r\n"), "refused 8 at 0\n");
}

#[test]
fn more_than_4096_bytes_is_9_whatever_they_are() {
    let most = b"aaaaaaa\n".repeat(512);
    assert!(listed(&most).ends_with("\n512 names 2570 bytes\n"));
    assert_eq!(listed(&[&most[..], b"a"].concat()), "refused 9\n");
    assert_eq!(listed(&[b'@'; 4_097]), "refused 9\n");
    assert_eq!(printed(&[b'\n'; 4_097]), "refused 9\n");
    assert_eq!(listed(&[b'@'; 4_096]), "refused 12\n");
}

#[test]
fn each_type_as_it_is_shown() {
    let expected = "\
0 DIFF 0 CHAR x DIGITS0 7/2 STRING ab DIGITS 5 END
1 DIFF 1 CHAR y DDELTA0 2 STRING ac DDELTA 255 END
2 DIFF 1 MATCH DIGITS0 9/3 MATCH DIGITS0 0/1 END
3 names 59 bytes
";
    assert_eq!(listed(b"x07ab5\ny09ac260\ny009ac0\n"), expected);
}

/// What position 127 holds is one CHAR or STRING, digits too.
#[test]
fn the_rest_at_position_127() {
    let name = |rest: &str| ["a1".repeat(63), rest.into(), "\n".into()].concat();
    let last = |rest: &str| {
        let out = listed(name(rest).as_bytes());
        let line = out.lines().next().unwrap().to_string();
        line.rsplit_once("DIGITS 1 ").unwrap().1.to_string()
    };
    assert_eq!(last("a7"), "STRING a7 END");
    assert_eq!(last("b"), "CHAR b END");
    assert_eq!(last("b12345678901c"), "STRING b12345678901c END");
    let digits = ["1a".repeat(63), "7\n".into()].concat();
    assert!(listed(digits.as_bytes()).contains(" CHAR a CHAR 7 END\n"));
    let twice = ["1a".repeat(63), "7\n".into(), "1a".repeat(63), "8\n".into()].concat();
    assert!(listed(twice.as_bytes()).contains(" MATCH CHAR 8 END\n"));
}

/// What is stored for the library's program is what this one prints.
#[test]
fn the_stored_pairs() {
    let folder = concat!(env!("CARGO_MANIFEST_DIR"), "/../listing");
    let files = fs::read_dir(folder).unwrap();
    let paths = files.map(|file| file.unwrap().path());
    let inputs = paths.filter(|path| path.extension().is_some_and(|end| end == "in"));
    let mut pairs = 0;
    for path in inputs {
        let stored = fs::read(path.with_extension("out")).unwrap();
        let listed = listing(&fs::read(&path).unwrap());
        assert!(listed == stored, "{}", path.display());
        pairs += 1;
    }
    assert!(pairs > 50, "only {pairs} pairs");
}

/// The library's listing beside the second program's, the whole buffer compared: generated names, spoilt ones, and
/// buffers with room and without.
#[cfg(feature = "leaves")]
#[test]
fn second_program_beside_the_linked_listing() {
    use second::boundary;
    use second::cases::names::{ended, good, spoil};
    use second::cases::random::Random;
    use second::leaf::{self, LISTING_ROOM};

    let mut refused = 0;
    for seed in 0..5_000 {
        let mut random = Random::new(seed);
        let mut input = ended(&good(&mut random, 60));
        if random.percent(25) {
            spoil(&mut random, &mut input);
        }
        let room = LISTING_ROOM - usize::from(random.percent(1));
        let mut outs = [vec![0xEE; room], vec![0xEE; room]];
        let answers = [
            leaf::list(&input, &mut outs[0]),
            boundary::list(&input, &mut outs[1]),
        ];
        assert_eq!(answers[0], answers[1], "seed {seed}");
        assert!(outs[0] == outs[1], "seed {seed}");
        refused += usize::from(outs[0].starts_with(b"refused"));
    }
    assert!((100..4_900).contains(&refused), "{refused} refused");
}
