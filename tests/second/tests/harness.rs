//! The comparison itself: it agrees where it should, meets every answer, and finds what is wrong.
//! No call of the library is made, so this is run without it, for whatever machine this is.
#![cfg(not(feature = "linked"))]

use second::calls::{Calls, Second};
use second::cases::{edges, large, make, run, Family, FAMILIES};
use second::claim::KeptText;
use second::class::{self, Class};
use second::compare::{compare, Case, Tally};
use second::directory::{place, Block, Spans, Stream, LAST_POSITION};
use second::distance::Lead;
use second::kept::Tables;
use second::memory::{Call, Memory};
use second::model::{replay, Model, Rule, PLACES, RULE};
use second::name::head;
use second::refusal::{pack, unpack, Reason, DONE};
use second::round::WAYS;
use second::split::{against, split, Item};
use second::token::{Token, Type};
use std::collections::{BTreeMap, BTreeSet};

/// Every answer that each call can give; from its own opening a whole read meets no 11 and no 13,
/// and of what was written it is always done.
const ANSWERS: [(&str, &[u32]); 8] = [
    ("open", &[0, 1, 12]),
    ("read", &[0, 1, 2, 3, 4, 5, 6, 7, 8, 9, 10, 13, DONE]),
    ("read_block", &[1, 2, 3, 4, 5, 6, 7, 8, 9, 10, 12, DONE]),
    ("claim", &[0, 11, 13]),
    ("write", &[0, 1, 8, 9, 12]),
    ("model_replay", &[0, 17, 18]),
    ("read_block cut to the total", &[DONE]),
    ("read_block with other bytes behind", &[DONE]),
];

#[test]
fn second_program_beside_itself_meets_every_answer() {
    let tally = run(&Second, &Slip(NO_SLIP), 1).unwrap();
    assert_all_met(&ANSWERS, &tally);
    assert!(tally.values().sum::<u64>() > 300_000, "{tally:?}");
}

/// Each call met just the answers that stand beside it.
fn assert_all_met<A>(answers: &[(&'static str, &[A])], tally: &BTreeMap<(&'static str, A), u64>)
where
    A: Copy + Ord + std::fmt::Debug,
{
    let mut possible = BTreeSet::new();
    for (call, answers) in answers {
        possible.extend(answers.iter().map(|answer| (*call, *answer)));
    }
    let met: BTreeSet<_> = tally.keys().copied().collect();
    assert_eq!(met, possible, "{tally:?}");
}

/// What fresh starts add to the answers of a read, single or of a whole block.
const FRESH_READS: &[&str] = &[
    "a fresh name kept",
    "a DIFF on a fresh name kept",
    "a DUP of a fresh name kept",
    "a name past a fresh name kept",
    "4 for DUP 0",
    "4 for a distance above the name's number",
    "5 by MATCH in a fresh name",
    "5 by DDELTA in a fresh name",
    "5 by DDELTA0 in a fresh name",
    "5 by a delta without its byte in a fresh name",
];

/// By call; only a single read can find its memory changed.
const FRESH_ANSWERS: [(&str, &[&str]); 4] = [
    ("read_block", FRESH_READS),
    ("read", FRESH_READS),
    (
        "read",
        &[
            "a fresh name kept over a damaged one",
            "a fresh name kept by a distance read again",
            "5 by a distance read again",
            "5 in a fresh name over a damaged one",
        ],
    ),
    ("claim", &["a fresh name denied", "a fresh name confirmed"]),
];

#[test]
fn the_family_of_fresh_starts_meets_every_answer_of_its_own() {
    assert_all_met(&FRESH_ANSWERS, &tally_of("fresh", met));
}

fn family_of(word: &str) -> &'static Family {
    let mut families = FAMILIES.iter();
    families.find(|family| family.word == word).unwrap()
}

/// How often each call of a family met what is said of its answer and of the memory it left.
fn tally_of(
    word: &str,
    met: fn(&Call, (u32, u32), &mut Memory) -> Vec<&'static str>,
) -> BTreeMap<(&'static str, &'static str), u64> {
    let family = family_of(word);
    let mut tally = BTreeMap::new();
    for number in 0..family.cases {
        let Case { mut memory, calls } = make(family, number);
        for call in &calls {
            let answer = memory.ask(call);
            for words in met(call, answer, &mut memory) {
                *tally.entry((call.word(), words)).or_default() += 1;
            }
        }
    }
    tally
}

/// What a replay can come to.
const REPLAY_ANSWERS: [(&str, &[&str]); 1] = [(
    "model_replay",
    &[
        "0 for no symbols",
        "0 with a total of 65,504",
        "0 with no symbol moved",
        "0 with a symbol moved",
        "0 past a halving",
        "0 for every byte there is",
        "17 for size 0",
        "17 for size 257",
        "17 for a larger size",
        "17 where 18 holds too",
        "18 at the first symbol",
        "18 at a later symbol",
        "18 past a halving",
    ],
)];

#[test]
fn the_family_of_replays_meets_every_answer_of_its_own() {
    assert_all_met(&REPLAY_ANSWERS, &tally_of("replays", met_by_replay));
}

fn met_by_replay(call: &Call, (code, _): (u32, u32), memory: &mut Memory) -> Vec<&'static str> {
    let Call::ModelReplay { size, trace } = call else {
        return Vec::new();
    };
    let places = memory.symbols.get().iter().take(*size as usize);
    let moved = !places.copied().eq(0..*size);
    let [total] = *memory.to_replay().total;
    let outside = trace.iter().position(|symbol| u32::from(*symbol) >= *size);
    // What the total would be without a halving.
    let grown = *size as usize + RULE.growth as usize * outside.unwrap_or(trace.len());
    let halved = total as usize != grown;
    let bytes = BTreeSet::from_iter(trace);
    let said = [
        (code == 0 && trace.is_empty(), "0 for no symbols"),
        (code == 0 && total == RULE.most, "0 with a total of 65,504"),
        (
            code == 0 && !moved && *size > 1 && !trace.is_empty(),
            "0 with no symbol moved",
        ),
        (code == 0 && moved, "0 with a symbol moved"),
        (code == 0 && halved, "0 past a halving"),
        (
            code == 0 && bytes.len() == PLACES,
            "0 for every byte there is",
        ),
        (code == 17 && *size == 0, "17 for size 0"),
        (code == 17 && *size == 257, "17 for size 257"),
        (code == 17 && *size > 257, "17 for a larger size"),
        (code == 17 && outside.is_some(), "17 where 18 holds too"),
        (code == 18 && outside == Some(0), "18 at the first symbol"),
        (code == 18 && outside > Some(0), "18 at a later symbol"),
        (code == 18 && halved, "18 past a halving"),
    ];
    let met = said.into_iter().filter(|(met, _)| *met);
    met.map(|(_, words)| words).collect()
}

/// What an answer has to do with fresh starts, told by the memory that its call left.
fn met(call: &Call, (code, value): (u32, u32), memory: &mut Memory) -> Vec<&'static str> {
    let kept = memory.state_numbers()[1];
    match (call, code) {
        (Call::Read, 0) => met_by_kept(memory, value),
        (Call::ReadBlock { .. }, DONE) => (0..kept)
            .flat_map(|number| met_by_kept(memory, number))
            .collect(),
        (Call::Read | Call::ReadBlock { .. }, 4 | 5) => {
            Vec::from_iter(met_by_refused(memory, code))
        }
        (Call::Claim { number, .. }, 0) if is_fresh(memory, *number) => {
            vec![["a fresh name denied", "a fresh name confirmed"][value as usize]]
        }
        _ => Vec::new(),
    }
}

/// A later name that has no earlier one.
fn is_fresh(memory: &Memory, number: u32) -> bool {
    number > 0 && memory.entry(number).distance == 0
}

fn met_by_kept(memory: &mut Memory, number: u32) -> Vec<&'static str> {
    if is_fresh(memory, number) {
        return vec![met_by_fresh(memory, number)];
    }
    let entry = memory.entry(number);
    let earlier = number - entry.distance;
    let on = if memory.entry(earlier).first_row == entry.first_row {
        "a DUP of a fresh name kept"
    } else {
        "a DIFF on a fresh name kept"
    };
    let past = (earlier + 1..number).any(|between| is_fresh(memory, between));
    let on = is_fresh(memory, earlier).then_some(on);
    let past = past.then_some("a name past a fresh name kept");
    on.into_iter().chain(past).collect()
}

fn met_by_fresh(memory: &mut Memory, number: u32) -> &'static str {
    let (block, cursors, tables) = memory.to_read();
    if tables.earlier(number - 1).is_err() {
        "a fresh name kept over a damaged one"
    } else if read_of_diff(block, cursors) == 4 {
        "a fresh name kept by a distance read again"
    } else {
        "a fresh name kept"
    }
}

/// How many bytes of the DIFF span were read; the first four are name 0's.
fn read_of_diff(block: Block<'_>, cursors: &[u32]) -> u32 {
    let diff = place(0, Stream::Diff);
    cursors[diff] - block.directory[2 * diff]
}

/// For 4 and 5, which leave the name's bytes unread.
fn met_by_refused(memory: &mut Memory, code: u32) -> Option<&'static str> {
    let number = memory.state_numbers()[1];
    let (block, cursors, tables) = memory.to_read();
    let mut spans = Spans::new(block, cursors).ok()?;
    match (code, head(&mut spans).ok()?) {
        (4, (Lead::Dup, 0)) => Some("4 for DUP 0"),
        (4, (_, distance)) if distance > number => Some("4 for a distance above the name's number"),
        (5, (Lead::Diff, 0)) if number > 0 => Some(if tables.earlier(number - 1).is_err() {
            "5 in a fresh name over a damaged one"
        } else if read_of_diff(block, cursors) == 0 {
            "5 by a distance read again"
        } else {
            met_by_five(&mut spans)?
        }),
        _ => None,
    }
}

/// By the first type of a fresh name that leans.
fn met_by_five(spans: &mut Spans<'_>) -> Option<&'static str> {
    let leaning = |position| {
        let kind = Type::of(spans.byte(position, Stream::Type).ok()?).ok()?;
        let leans = [Type::Match, Type::Ddelta, Type::Ddelta0].contains(&kind);
        leans.then_some((position, kind))
    };
    let (position, kind) = (1..LAST_POSITION).find_map(leaning)?;
    let mut has = |stream| spans.byte(position, stream).is_ok();
    Some(match kind {
        Type::Match => "5 by MATCH in a fresh name",
        Type::Ddelta if has(Stream::Ddelta) => "5 by DDELTA in a fresh name",
        Type::Ddelta0 if has(Stream::Ddelta0) => "5 by DDELTA0 in a fresh name",
        _ => "5 by a delta without its byte in a fresh name",
    })
}

/// What names with punctuation add to what is written (C-14), in a name that leans on none and in
/// one that leans; of a name alone also where there is no room for it.
const PUNCTUATION: &[&str] = &[
    "a run of letters of both cases",
    "a letter alone",
    "two other bytes side by side",
    "[ alone, next to Z",
    "` alone, next to a",
    "{ alone, next to z",
    "/ alone before a digit",
    ": alone before a digit",
    "digits behind letters",
    "a name of 126 tokens",
    "another byte alone at position 127",
    "a digit alone at position 127",
    "a letter alone at position 127",
    "bytes of one class at position 127",
    "bytes of several classes at position 127",
];

const PUNCTUATION_ANSWERS: [(&str, &[&str]); 4] = [
    ("0, name 0", PUNCTUATION),
    ("9, name 0", PUNCTUATION),
    ("0, name 1", PUNCTUATION),
    (
        "0, name 1",
        &[
            "DUP",
            "MATCH of another byte",
            "MATCH of letters",
            "MATCH at position 127",
            "a delta behind another byte",
        ],
    ),
];

#[test]
fn the_family_of_punctuation_meets_every_answer_of_its_own() {
    let family = family_of("punctuation");
    let mut tally = BTreeMap::new();
    for number in 0..family.cases {
        let Case { mut memory, calls } = make(family, number);
        let Call::Write { input } = &calls[0] else {
            panic!("case {number} writes nothing");
        };
        let names: Vec<&[u8]> = input.split_inclusive(|byte| *byte == b'\n').collect();
        let names: Vec<&[u8]> = names.iter().map(|name| &name[..name.len() - 1]).collect();
        let call = match (memory.ask(&calls[0]).0, names.len()) {
            (0, _) => ["0, name 0", "0, name 1"],
            (9, 1) => ["9, name 0", ""],
            _ => continue,
        };
        let mut met = |call, words| *tally.entry((call, words)).or_default() += 1;
        for (place, name) in names.iter().enumerate() {
            met_by_split(name, |words| met(call[place], words));
        }
        if let [before, name] = names[..] {
            met_by_leaning(before, name, |words| met(call[1], words));
        }
    }
    assert_all_met(&PUNCTUATION_ANSWERS, &tally);
}

/// By what a name is split into.
fn met_by_split(name: &[u8], mut met: impl FnMut(&'static str)) {
    let tokens = split(name);
    let is_other = |token: &Token<'_>| {
        let Token::Char(byte) = token else {
            return false;
        };
        class::of(*byte) == Class::Other
    };
    for (place, token) in tokens.iter().enumerate() {
        let several = |bytes: &[u8]| {
            bytes
                .iter()
                .any(|byte| class::of(*byte) != class::of(bytes[0]))
        };
        match *token {
            Token::String(bytes) if place < 126 => {
                let upper = bytes.iter().filter(|byte| byte.is_ascii_uppercase());
                if (1..bytes.len()).contains(&upper.count()) {
                    met("a run of letters of both cases");
                }
            }
            Token::String(bytes) => met(if several(bytes) {
                "bytes of several classes at position 127"
            } else {
                "bytes of one class at position 127"
            }),
            Token::Char(byte) if place == 126 => met(match class::of(byte) {
                Class::Digit => "a digit alone at position 127",
                Class::Letter => "a letter alone at position 127",
                Class::Other => "another byte alone at position 127",
            }),
            Token::Char(b'[') => met("[ alone, next to Z"),
            Token::Char(b'`') => met("` alone, next to a"),
            Token::Char(b'{') => met("{ alone, next to z"),
            Token::Char(byte) if class::of(byte) == Class::Letter => met("a letter alone"),
            _ => {}
        }
    }
    for pair in tokens.windows(2) {
        match pair {
            [first, second] if is_other(first) && is_other(second) => {
                met("two other bytes side by side");
            }
            [Token::Char(b'/'), Token::Digits(_) | Token::Digits0(_)] => {
                met("/ alone before a digit");
            }
            [Token::Char(b':'), Token::Digits(_) | Token::Digits0(_)] => {
                met(": alone before a digit");
            }
            [Token::String(_), Token::Digits(_) | Token::Digits0(_)] => {
                met("digits behind letters");
            }
            _ => {}
        }
    }
    if tokens.len() == 126 {
        met("a name of 126 tokens");
    }
}

/// By what a name is written as that follows another.
fn met_by_leaning(before: &[u8], name: &[u8], mut met: impl FnMut(&'static str)) {
    if before == name {
        return met("DUP");
    }
    let (rows, tokens) = (split(before), split(name));
    let mut behind = false;
    for (place, token) in tokens.iter().enumerate() {
        let row = rows.get(place).copied();
        let other = matches!(*token, Token::Char(byte) if class::of(byte) == Class::Other);
        match against(*token, row) {
            Item::Match if place == 126 => met("MATCH at position 127"),
            Item::Match if other => met("MATCH of another byte"),
            Item::Match if matches!(token, Token::String(_)) => met("MATCH of letters"),
            Item::Ddelta(_) | Item::Ddelta0(_) if behind => met("a delta behind another byte"),
            _ => {}
        }
        behind = other;
    }
}

/// The second program with one slip, chosen by number.
struct Slip(u32);

/// How many slips there are below.
const SLIPS: u32 = 27;
/// Those that a round trip finds, even where both sides have them.
const IN_ROUND_TRIPS: std::ops::Range<u32> = 14..19;
/// The number of none of them.
const NO_SLIP: u32 = SLIPS;

impl Calls for Slip {
    fn open(&self, block: Block<'_>, count: u32, cursors: &mut [u32], state: &mut [u32; 4]) -> u64 {
        let kept = state[1];
        let answer = Second.open(block, count, cursors, state);
        if self.0 == 0 && answer == 0 {
            state[1] = kept.min(1);
        }
        answer
    }

    fn read(&self, block: Block<'_>, cursors: &mut [u32], mut tables: Tables<'_>) -> u64 {
        if let Some(answer) = self.read_at_distance_0(block, cursors, tables.lend()) {
            return answer;
        }
        let before = cursors.to_vec();
        let [_, _, text, rows] = *tables.state;
        let answer = Second.read(block, cursors, tables.lend());
        let kept = unpack(answer).0 == 0;
        match self.0 {
            1 if kept => cursors.copy_from_slice(&before),
            2 if unpack(answer) == (8, 1) => cursors[0] = cursors[0].wrapping_add(1),
            3 if kept => tables.text[text as usize] ^= 1,
            4 if kept && tables.state[3] > rows => tables.rows[5 * rows as usize + 2] += 1,
            5 if unpack(answer).0 == 13 => return answer | 0xFFFF_FFFF << 32,
            _ => {}
        }
        answer
    }

    fn read_block(
        &self,
        block: Block<'_>,
        count: u32,
        cursors: &mut [u32],
        mut tables: Tables<'_>,
    ) -> u64 {
        if let Some(reason) = self.refused_for_the_end(block) {
            return pack(Err(reason.into()));
        }
        let answer = Second.read_block(block, count, cursors, tables.lend());
        let changed = match (self.0, unpack(answer).0) {
            (6, 9) => tables.names.last_mut(),
            (17, DONE) => tables.names.get_mut(1),
            _ => None,
        };
        if let Some(number) = changed {
            *number ^= 1;
        }
        if let (18, Some(byte)) = (self.0, tables.text.first_mut()) {
            *byte ^= 1;
        }
        answer
    }

    fn claim(&self, number: u32, claimed: &[u8], kept: KeptText<'_>) -> u64 {
        let answer = Second.claim(number, claimed, kept);
        if self.0 != 7 || unpack(answer) != (0, 0) {
            return answer;
        }
        // The comparison "only up to the shorter length".
        let start = kept.names[5 * number as usize] as usize;
        let length = kept.names[5 * number as usize + 1] as usize;
        let length = length.min(claimed.len());
        let same = kept.text[start..start + length] == claimed[..length];
        u64::from(same) << 32
    }

    fn write(
        &self,
        input: &[u8],
        directory: &mut [u32],
        bytes: &mut [u8],
        totals: &mut [u32; 2],
    ) -> u64 {
        let answer = Second.write(input, directory, bytes, totals);
        let (code, total) = unpack(answer);
        match self.0 {
            8 if code == 0 && (total as usize) < bytes.len() => bytes[total as usize] = 0,
            9 if code == 9 => totals[0] = 0,
            14 if code == 0 && total > 0 => {
                totals[1] -= 1;
                return answer - (1 << 32);
            }
            _ => {}
        }
        answer
    }

    fn model_replay(&self, size: u32, trace: &[u8], mut model: Model<'_>) -> u64 {
        let held = (*model.symbols, *model.frequencies, *model.total);
        let Rule { growth, most } = RULE;
        let rule = match self.0 {
            19 => Rule {
                most: most - 1,
                ..RULE
            },
            20 => Rule {
                growth: growth + 8,
                ..RULE
            },
            _ => RULE,
        };
        let answer = pack(replay(rule, size, trace, &mut model));
        match (self.0, unpack(answer).0) {
            (21, 18) => (*model.symbols, *model.frequencies, *model.total) = held,
            (22, 18) if trace[0] >= size as u8 => *model.total = held.2,
            (23, 17) => model.total[0] = 0,
            (24, 0) if size < 256 => model.symbols[size as usize] = size,
            (25, 17) if size == 0 && trace.len() > 1 => return pack(Err(Reason::Symbol.into())),
            (26, 0 | 18) => move_before_halving(size as usize, trace, &mut model),
            _ => {}
        }
        answer
    }
}

/// The table that a trace leaves if a symbol moves before the frequencies are halved.
fn move_before_halving(size: usize, trace: &[u8], model: &mut Model<'_>) {
    replay(RULE, size as u32, &[], model).expect("a size that a table has");
    let (symbols, frequencies) = (&mut model.symbols[..size], &mut model.frequencies[..size]);
    for symbol in trace {
        let place = symbols.iter().position(|s| *s == u32::from(*symbol));
        let Some(place) = place else { return };
        frequencies[place] += RULE.growth;
        model.total[0] += RULE.growth;
        if place > 0 && frequencies[place] > frequencies[place - 1] {
            frequencies.swap(place, place - 1);
            symbols.swap(place, place - 1);
        }
        if model.total[0] > RULE.most {
            frequencies.iter_mut().for_each(|f| *f -= *f / 2);
            model.total[0] = frequencies.iter().sum();
        }
    }
}

impl Slip {
    /// The slips of wanting a byte behind the last span, and of minding those that are there.
    fn refused_for_the_end(&self, block: Block<'_>) -> Option<Reason> {
        let end = *block.directory.last()? as usize;
        let behind = block.bytes.get(end..)?;
        match self.0 {
            15 if end > 0 && behind.is_empty() => Some(Reason::Directory),
            16 if behind.iter().any(|byte| *byte != 0xEE) => Some(Reason::Unread),
            _ => None,
        }
    }

    /// The slips of reading a later name whose distance is 0.
    fn read_at_distance_0(
        &self,
        block: Block<'_>,
        cursors: &mut [u32],
        tables: Tables<'_>,
    ) -> Option<u64> {
        let number = tables.judge().ok()?.kept;
        block.judge(cursors.len()).ok()?;
        let (lead, distance) = head(&mut Spans::new(block, cursors).ok()?).ok()?;
        if number == 0 || distance > 0 {
            return None;
        }
        let refused = |reason: Reason| Some(pack(Err(reason.at(number))));
        match (self.0, lead) {
            (10, Lead::Diff) => refused(Reason::Distance),
            (11, Lead::Diff) if tables.earlier(number - 1).is_err() => refused(Reason::Outside),
            (12, Lead::Diff) => Some(read_one_back(block, cursors, tables, Stream::Diff)),
            (13, Lead::Dup) => Some(read_one_back(block, cursors, tables, Stream::Dup)),
            _ => None,
        }
    }
}

/// A read with the distance 1 in the place of 0, though 0 is what it keeps.
fn read_one_back(
    block: Block<'_>,
    cursors: &mut [u32],
    mut tables: Tables<'_>,
    stream: Stream,
) -> u64 {
    let mut bytes = block.bytes.to_vec();
    bytes[cursors[place(0, stream)] as usize] = 1;
    let bytes = &bytes;
    let answer = Second.read(Block { bytes, ..block }, cursors, tables.lend());
    if let (0, number) = unpack(answer) {
        tables.names[5 * number as usize + 4] = 0;
    }
    answer
}

#[test]
fn every_slip_is_found() {
    for number in 0..SLIPS {
        let found = run(&Second, &Slip(number), 1);
        let words = found.expect_err(&format!("slip {number} passed"));
        assert!(words.contains("memory before the call"), "{words}");
        assert!(
            words.len() < 20_000,
            "the account of slip {number} is too long"
        );
    }
}

/// Both sides slip, so that no comparison of the two can tell.
#[test]
fn a_slip_of_both_is_found_by_a_round_trip() {
    for number in IN_ROUND_TRIPS {
        let way = if number == 16 {
            "read_block with other bytes behind: neither gives back write "
        } else {
            "read_block cut to the total: neither gives back write "
        };
        let found = run(&Slip(number), &Slip(number), 1);
        let words = found.expect_err(&format!("slip {number} passed"));
        assert!(words.contains(way), "slip {number}: {words}");
    }
}

#[test]
fn a_difference_says_where() {
    let words = run(&Second, &Slip(3), 1).unwrap_err();
    assert!(
        words.contains(" case ") && words.contains("call "),
        "{words}"
    );
    assert!(words.contains("left against right: text["), "{words}");
    let words = run(&Second, &Slip(7), 1).unwrap_err();
    assert!(
        words.contains("the memory afterwards is the same"),
        "{words}"
    );
}

#[test]
fn the_largest_blocks() {
    let mut tally = Tally::new();
    for case in large::cases() {
        compare(&case, &Second, &Slip(NO_SLIP), &mut tally).unwrap();
    }
    for (call, code, times) in [
        ("write", 0, 3),
        ("write", 12, 3),
        ("read_block", DONE, 3),
        ("read_block", 12, 3),
        ("claim", 0, 6),
        ("claim", 11, 9),
        ("claim", 13, 3),
        ("read_block cut to the total", DONE, 3),
        ("read_block with other bytes behind", DONE, 3),
    ] {
        assert_eq!(
            tally.get(&(call, code)),
            Some(&times),
            "{call} {code}: {tally:?}"
        );
    }
}

#[test]
fn every_edge_of_some_small_blocks() {
    let mut tally = Tally::new();
    for case in edges::cases() {
        compare(&case, &Second, &Slip(NO_SLIP), &mut tally).unwrap();
    }
    let met = |code| tally.contains_key(&("read_block", code));
    let codes = [1, 2, 3, 4, 5, 6, 8, 9, 10, DONE];
    assert!(codes.into_iter().all(met), "{tally:?}");
    // Each of nine blocks is written into just its total, and into one byte more.
    for way in &WAYS {
        assert_eq!(tally.get(&(way.word, DONE)), Some(&18), "{tally:?}");
    }
    assert!(tally.values().sum::<u64>() > 40_000, "{tally:?}");
}
