//! The binding: what goes through it in both directions, and that its sizes suffice.

use aqsurvel::{bytes_for, Block, Model, Read, Reason, Refusal, Room, Scoreboard, Verdict};
use aqsurvel::{CURSORS, DIRECTORY, MOST_BYTES, MOST_NAMES, MOST_ROWS, PLACES};

fn refusal(reason: Reason, name: Option<u32>) -> Refusal {
    Refusal { reason, name }
}

fn written(input: &[u8]) -> Block {
    Block::write(input).expect("the names are allowed")
}

fn opened(block: &Block) -> Scoreboard<'_> {
    Scoreboard::open(block, Room::for_count(block.count())).expect("the block was written")
}

#[test]
fn names_come_back() {
    let names: [&[u8]; 4] = [b"run7:0098", b"run7:0099", b"run7:0100", b"run7:0100"];
    let block = written(&[names.join(&b'\n'), b"\n".to_vec()].concat());
    assert_eq!((block.count(), block.bytes().len()), (4, 51));
    let mut board = opened(&block);
    assert_eq!(board.read_all(), Ok(4));
    assert!(board.names().eq(names));
}

#[test]
fn one_read_keeps_one_name() {
    let block = written(b"a1\na2\n");
    let mut board = opened(&block);
    assert!(board.is_empty());
    assert_eq!(board.read(), Ok(Read::Kept(0)));
    assert_eq!((board.name(0), board.name(1)), (Some(&b"a1"[..]), None));
    assert_eq!(board.read(), Ok(Read::Kept(1)));
    assert_eq!(board.read(), Ok(Read::Done(2)));
    assert_eq!(board.len(), 2);
}

#[test]
fn opening_again_forgets() {
    let block = written(b"a1\na2\n");
    let mut board = opened(&block);
    assert_eq!(board.read_all(), Ok(2));
    assert_eq!(board.reopen(), Ok(()));
    assert!(board.is_empty());
    assert_eq!(
        board.claim(0, b"a1"),
        Err(refusal(Reason::NotRead, Some(0)))
    );
    assert_eq!(board.read(), Ok(Read::Kept(0)));
}

#[test]
fn claims_look_at_every_byte() {
    let block = written(b"run7:0098\n");
    let mut board = opened(&block);
    assert_eq!(board.read_all(), Ok(1));
    assert_eq!(board.claim(0, b"run7:0098"), Ok(Verdict::Confirmed));
    for wrong in ["run7:0099", "run7:009", "run7:0098\n", "run7:98", ""] {
        assert_eq!(
            board.claim(0, wrong.as_bytes()),
            Ok(Verdict::Denied),
            "{wrong}"
        );
    }
}

#[test]
fn a_claim_on_a_name_not_read() {
    let block = written(b"a\nb\n");
    let mut board = opened(&block);
    assert_eq!(board.read(), Ok(Read::Kept(0)));
    for number in [1, 2, u32::MAX - 1, u32::MAX] {
        let refused = refusal(Reason::NotRead, Some(number));
        assert_eq!(board.claim(number, b"b"), Err(refused));
    }
}

#[test]
fn writing_refuses() {
    let bad_name = refusal(Reason::Bytes, Some(1));
    assert_eq!(Block::write(b"good\nno@good\n"), Err(bad_name));
    let unended = refusal(Reason::Count, None);
    assert_eq!(Block::write(b"good\nunended"), Err(unended));
    let no_room = refusal(Reason::Room, None);
    assert_eq!(Block::write_within(b"good\n", 3), Err(no_room));
}

#[test]
fn too_many_names() {
    let many = MOST_NAMES as usize;
    assert_eq!(written(&b"a\n".repeat(many)).count(), MOST_NAMES);
    let refused = refusal(Reason::Count, None);
    assert_eq!(Block::write(&b"a\n".repeat(many + 1)), Err(refused));
}

#[test]
fn opening_refuses() {
    let refused = |block: Block| Scoreboard::open(&block, Room::for_count(1)).err();
    let short = Block::new(Vec::new(), vec![0; DIRECTORY - 1], 0);
    assert_eq!(refused(short), Some(refusal(Reason::Directory, None)));
    let beyond = Block::new(Vec::new(), vec![1; DIRECTORY], 0);
    assert_eq!(refused(beyond), Some(refusal(Reason::Directory, None)));
    let many = Block::new(Vec::new(), vec![0; DIRECTORY], MOST_NAMES + 1);
    assert_eq!(refused(many), Some(refusal(Reason::Count, None)));
}

#[test]
fn a_damaged_block_keeps_the_names_before() {
    let block = written(b"a1\na2\nb\n");
    // The last name's type byte: position 0's TYPE span is the first of all.
    let mut bytes = block.bytes().to_vec();
    bytes[2] = 9;
    let damaged = Block::new(bytes, block.directory().to_vec(), 3);
    let mut board = opened(&damaged);
    let refused = refusal(Reason::Type, Some(2));
    assert_eq!(board.read_all(), Err(refused));
    assert_eq!(board.len(), 2);
    assert_eq!(board.read(), Err(refused));
    assert_eq!(board.claim(1, b"a2"), Ok(Verdict::Confirmed));
}

#[test]
fn a_later_name_may_start_afresh() {
    // Behind the two types of position 0 are the two distances, so the second begins at byte 6.
    let afresh = |input| {
        let block = written(input);
        let mut bytes = block.bytes().to_vec();
        assert_eq!(bytes[6..10], [1, 0, 0, 0]);
        bytes[6] = 0;
        Block::new(bytes, block.directory().to_vec(), 2)
    };
    let block = afresh(b"a\nb\n");
    let mut board = opened(&block);
    assert_eq!(board.read_all(), Ok(2));
    assert!(board.names().eq([b"a", b"b"]));
    // Its MATCH of the `a` has nothing to lean on.
    let leaning = afresh(b"a1\na2\n");
    let refused = refusal(Reason::NoRow, Some(1));
    assert_eq!(opened(&leaning).read_all(), Err(refused));
}

#[test]
fn a_count_below_the_names_leaves_bytes() {
    let block = written(b"a1\na2\n");
    let fewer = Block::new(block.bytes().to_vec(), block.directory().to_vec(), 1);
    let mut board = opened(&fewer);
    assert_eq!(board.read_all(), Err(refusal(Reason::Unread, None)));
    assert_eq!(board.len(), 1);
}

#[test]
fn no_names() {
    let block = written(b"");
    assert_eq!((block.count(), block.bytes().len()), (0, 0));
    let mut board = opened(&block);
    assert_eq!(board.read(), Ok(Read::Done(0)));
    assert_eq!(board.names().count(), 0);
}

#[test]
fn room_for_a_count_is_enough_and_no_more() {
    // 126 tokens of one byte, then one STRING for the rest, at position 127.
    let longest = ["a1".repeat(63), "x".repeat(128)].concat();
    let block = written(format!("{longest}\n").as_bytes());
    let room = Room::for_count(1);
    assert_eq!(opened(&block).read_all(), Ok(1));
    let short = [
        Room {
            text: room.text - 1,
            ..room
        },
        Room {
            names: room.names - 1,
            ..room
        },
        Room {
            rows: room.rows - 1,
            ..room
        },
    ];
    for room in short {
        let mut board = Scoreboard::open(&block, room).unwrap();
        assert_eq!(board.read_all(), Err(refusal(Reason::Room, Some(0))));
    }
}

#[test]
fn bytes_for_an_input_are_enough() {
    for input in [
        "0\n",
        "0\n00\n0\n1\n0\n",
        "0a0a0a0a0\n",
        "a\n",
        "000000000000\n",
    ] {
        let input = input.repeat(3);
        let block = written(input.as_bytes());
        assert!(block.bytes().len() <= bytes_for(input.len()), "{input}");
    }
    assert_eq!(written(b"0\n").bytes().len(), bytes_for(2));
}

const HEADER: &str = include_str!("../../../include/aqsurvel.h");

#[test]
fn reasons_have_the_headers_numbers_and_words() {
    for number in (1..=13).chain(17..=18) {
        let reason = Reason::of(number).expect("each number has its reason");
        assert_eq!(reason.number(), number);
        let line = format!("case {number}: return \"{}\";", reason.words());
        assert!(HEADER.contains(&line), "{line}");
    }
    for number in [0, 14, 16, 19, 256] {
        assert_eq!(Reason::of(number), None);
    }
}

#[test]
fn limits_are_the_headers() {
    for (word, number) in [
        ("DIRECTORY", DIRECTORY),
        ("CURSORS", CURSORS),
        ("MOST_NAMES", MOST_NAMES as usize),
        ("MOST_BYTES", MOST_BYTES),
        ("MOST_ROWS", MOST_ROWS),
        ("PLACES", PLACES),
    ] {
        let line = format!("#define AQ_{word} {number}u");
        assert!(HEADER.contains(&line), "{line}");
    }
}

#[test]
fn refusals_are_shown() {
    let shown = refusal(Reason::NotRead, Some(5)).to_string();
    assert_eq!(shown, "refused 11 at 5, a name that is not read yet");
    let alone = refusal(Reason::Room, None).to_string();
    assert_eq!(alone, "refused 9, no room");
}

#[test]
fn a_model_is_replayed() {
    let mut model = Model::default();
    assert_eq!(model.table().count(), 0);
    assert_eq!(model.replay(3, &[2, 2, 1]), Ok(()));
    assert!(model.table().eq([(2, 17), (1, 9), (0, 1)]));
    assert_eq!(model.total(), 27);
    // Another size leaves it, a symbol outside the table doesn't.
    assert_eq!(
        model.replay(257, &[]),
        Err(refusal(Reason::TableSize, None))
    );
    assert!(model.table().eq([(2, 17), (1, 9), (0, 1)]));
    assert_eq!(
        model.replay(2, &[1, 2, 0]),
        Err(refusal(Reason::Symbol, None))
    );
    assert!(model.table().eq([(1, 9), (0, 1)]));
    assert_eq!(model.total(), 10);
}
