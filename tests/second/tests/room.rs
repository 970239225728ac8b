//! C-18: one block read with every smaller room beside the ample one. With the library linked,
//! each call also goes through the C boundary.

use second::cases::blocks::planned;
use second::cases::random::Random;
use second::cases::script::{Packed, Script};
use second::directory::Stream;
use second::kept::FIVE;
use second::memory::{Call, Memory, Room};
use second::refusal::DONE;

/// What is in a buffer before it is lent must not matter: the runs begin with different bytes.
const OTHER: u8 = 0x11;

/// One of the three lengths of a room.
type Side = fn(&mut Room) -> &mut usize;

/// `a`, `b` and `c`, a row each.
fn a_b_c() -> Script {
    let two = Script::new().diff(0).char(b'a').end().diff(1).char(b'b');
    two.end().diff(1).char(b'c').end()
}

/// Names that share rows, lean on others and start afresh.
fn mixed() -> Script {
    let two = Script::new().diff(0).char(b'r').digits(9).end().dup(1);
    let three = two.diff(2).matched().ddelta(1).end();
    let four = three.diff(0).digits(7).end();
    four.diff(2).matched().matched().end().dup(4)
}

/// Blocks that end in "done", in 10, and in refusals that some name meets.
fn blocks() -> Vec<Packed> {
    let left_over = mixed().put(9, Stream::String, b"left");
    let small = (0..).map(|seed| planned(&mut Random::new(seed), 4));
    let small = small.filter(|block| block.names.len() > 2 && block.block.bytes.len() < 70);
    let small = small.map(|block| block.block).take(4);
    let scripts = [
        a_b_c(),
        mixed(),
        left_over,
        a_b_c().diff(1).char(b'@').end(),
        mixed().diff(3).matched().ddelta(1).end(),
        mixed().dup(9),
        mixed().diff(1).digits0(123, 2).end(),
        mixed().lead(6),
        mixed().diff(0).kind(3),
    ];
    let scripts = scripts.iter().map(Script::packed);
    scripts.chain(small).collect()
}

/// A run as far as it got: each read's answer and the memory that it left.
struct Run {
    count: u32,
    memory: Memory,
    steps: Vec<((u32, u32), Memory)>,
}

impl Run {
    fn begin(block: &Packed, room: Room, filler: u8) -> Run {
        let mut memory = Memory::new(block, room);
        memory.text.get_mut().fill(filler);
        memory.names.get_mut().fill(filler.into());
        memory.rows.get_mut().fill(filler.into());
        let count = block.count;
        assert_eq!(memory.ask(&Call::Open { count }), (0, 0));
        let steps = Vec::new();
        Run {
            count,
            memory,
            steps,
        }
    }

    fn read(&mut self) -> (u32, u32) {
        let answer = self.memory.ask(&Call::Read);
        self.steps.push((answer, self.memory.clone()));
        answer
    }

    /// Reads until one keeps no name.
    fn finish(mut self) -> Run {
        while self.read().0 == 0 {}
        self
    }

    /// What is needed to get there, and not a number more.
    fn used(&self) -> Room {
        let [_, names, text, rows] = self.memory.state_numbers().map(|number| number as usize);
        Room {
            text,
            names: FIVE * names,
            rows: FIVE * rows,
        }
    }
}

fn ample(block: &Packed) -> Run {
    let room = Room::ample(block.count as usize);
    Run::begin(block, room, 0xEE).finish()
}

/// The parts of `more` that are as long as what `less` uses are the same there.
fn assert_used_alike(less: &Memory, more: &Memory) {
    let [_, names, text, rows] = less.state_numbers().map(|number| number as usize);
    assert_eq!(less.text.get()[..text], more.text.get()[..text]);
    let entries = FIVE * names;
    assert_eq!(less.names.get()[..entries], more.names.get()[..entries]);
    let numbers = FIVE * rows;
    assert_eq!(less.rows.get()[..numbers], more.rows.get()[..numbers]);
}

fn assert_same(less: &Memory, more: &Memory) {
    assert!(less.cursors == more.cursors && less.state == more.state);
    assert_used_alike(less, more);
}

/// Where a run with less room came to beside one with more.
struct Beside {
    /// It met 9 where the other kept the name.
    full: bool,
    names: usize,
}

/// Read by read beside a run with more room.
fn assert_only_goes_further(block: &Packed, room: Room, more: &Run) -> Beside {
    let mut less = Run::begin(block, room, OTHER);
    let mut full = false;
    for (answer, memory) in &more.steps {
        let said = less.read();
        if said.0 == 9 && said != *answer {
            let next = less.memory.state_numbers()[1];
            assert_eq!(said, (9, next), "{room:?}");
            assert_eq!(*answer, (0, next), "{room:?}");
            full = true;
            break;
        }
        assert_eq!(said, *answer, "{room:?}");
        assert_same(&less.memory, memory);
    }
    // Whatever the last answer was, it stays.
    let last = less.steps.last().map(|(answer, _)| *answer);
    let left = less.memory.clone();
    for _ in 0..2 {
        assert_eq!(Some(less.read()), last);
        assert!(less.memory == left);
    }
    assert_claims_alike(&less, more);
    assert_block_alike(block, room, &less, more, full);
    let names = less.memory.state_numbers()[1] as usize;
    Beside { full, names }
}

/// Claims on the names kept in both, right, cut short and of the name after.
fn assert_claims_alike(less: &Run, more: &Run) {
    let (mut less, mut more) = (less.memory.clone(), more.memory.clone());
    let names: Vec<Vec<u8>> = more.kept_names().into_iter().map(<[u8]>::to_vec).collect();
    for number in 0..less.state_numbers()[1] {
        let name = &names[number as usize];
        let after = &names[(number as usize + 1) % names.len()];
        for claimed in [&name[..], &name[1..], after] {
            let right = claimed == *name;
            let claimed = claimed.to_vec();
            let claim = Call::Claim { number, claimed };
            assert_eq!(less.ask(&claim), (0, u32::from(right)));
            assert_eq!(more.ask(&claim), (0, u32::from(right)));
        }
    }
}

/// The whole block in one call comes to the same as its reads, and stands to the ample one so.
fn assert_block_alike(block: &Packed, room: Room, less: &Run, more: &Run, full: bool) {
    let mut whole = Run::begin(block, room, OTHER).memory;
    let count = less.count;
    let answer = whole.ask(&Call::ReadBlock { count });
    assert_eq!(Some(answer), less.steps.last().map(|(answer, _)| *answer));
    assert!(whole == less.memory);
    let [kept, of] = [&whole, &more.memory].map(|memory| memory.state_numbers()[1]);
    if full {
        assert!(answer == (9, kept) && kept < of);
    } else {
        assert_eq!(Some(answer), more.steps.last().map(|(answer, _)| *answer));
        assert_same(&whole, &more.memory);
    }
    assert_used_alike(&whole, &more.memory);
}

/// Each buffer by itself at every length up to what is used and a whole entry or row more.
#[test]
fn every_smaller_room_of_one_buffer() {
    for block in blocks() {
        let more = ample(&block);
        let used = more.used();
        let sides: [(usize, Side); 3] = [
            (used.text, |room| &mut room.text),
            (used.names, |room| &mut room.names),
            (used.rows, |room| &mut room.rows),
        ];
        for (most, side) in sides {
            for length in 0..=most + FIVE {
                let mut room = Room::ample(block.count as usize);
                *side(&mut room) = length;
                let beside = assert_only_goes_further(&block, room, &more);
                // 9 wherever less is lent than the ample run used, and nowhere else.
                assert_eq!(beside.full, length < most, "{room:?}");
            }
        }
    }
}

/// All three buffers at every length, of three names of one byte: as many are kept as there are
/// whole entries, rows and texts.
#[test]
fn every_smaller_room_of_three_names() {
    let block = a_b_c().packed();
    let more = ample(&block);
    let used = more.used();
    assert_eq!([used.text, used.names, used.rows], [6, 15, 15]);
    for text in 0..=used.text {
        for names in 0..=used.names {
            for rows in 0..=used.rows {
                let room = Room { text, names, rows };
                let fit = (text / 2).min(names / FIVE).min(rows / FIVE);
                let beside = assert_only_goes_further(&block, room, &more);
                assert_eq!((beside.full, beside.names), (fit < 3, fit), "{room:?}");
            }
        }
    }
}

/// Each room of three names beside one that is longer by one number in one buffer: the same, 9 in
/// both included, or 9 with less and that name kept with more. A table longer by less than one
/// entry or row changes nothing.
#[test]
fn every_room_beside_one_a_little_larger() {
    let block = a_b_c().packed();
    let lengths = [0, 4, 5, 9, 10, 14, 15];
    let sides: [Side; 3] = [
        |room| &mut room.text,
        |room| &mut room.names,
        |room| &mut room.rows,
    ];
    let whole = |room: Room| [room.text, room.names / FIVE, room.rows / FIVE];
    let (mut further, mut nine_in_both, mut no_more) = (0, 0, 0);
    for text in 0..=6 {
        for names in lengths {
            for rows in lengths {
                let room = Room { text, names, rows };
                for side in sides {
                    let mut larger = room;
                    *side(&mut larger) += 1;
                    let more = Run::begin(&block, larger, 0xEE).finish();
                    let beside = assert_only_goes_further(&block, room, &more);
                    let last = more.steps.last().map(|(answer, _)| answer.0);
                    further += u32::from(beside.full);
                    nine_in_both += u32::from(!beside.full && last == Some(9));
                    if whole(larger) == whole(room) {
                        assert!(!beside.full, "{room:?} {larger:?}");
                        no_more += 1;
                    }
                }
            }
        }
    }
    let met = [further, nine_in_both, no_more];
    assert!(met.iter().all(|&times| times > 0), "{met:?}");
}

/// The example of the request: room for two names stops with 9 at 2, one more each is done.
#[test]
fn room_for_two_of_three_names() {
    let block = a_b_c().packed();
    let count = block.count;
    let read = |text, entries, rows| {
        let (names, rows) = (FIVE * entries, FIVE * rows);
        let mut memory = Memory::new(&block, Room { text, names, rows });
        (memory.ask(&Call::ReadBlock { count }), memory.kept_texts())
    };
    for (text, entries, rows) in [(5, 3, 3), (6, 2, 3), (6, 3, 2)] {
        assert_eq!(read(text, entries, rows).0, (9, 2));
        assert_eq!(read(text, entries, rows).1, ["a", "b"]);
    }
    let (answer, names) = read(6, 3, 3);
    assert_eq!((answer, names.join(" ")), ((DONE, 3), "a b c".to_string()));
}

/// The blocks above end in all these ways.
#[test]
fn how_the_blocks_end() {
    let last = |block| ample(&block).steps.pop().map(|(answer, _)| answer.0);
    let mut codes: Vec<_> = blocks().into_iter().filter_map(last).collect();
    codes.sort_unstable();
    codes.dedup();
    assert_eq!(codes, [2, 3, 4, 5, 6, 8, 10, DONE]);
}
