//! Generated blocks and names: what is read is what was meant, what is written reads back.

use second::cases::blocks::planned;
use second::cases::names::{ended, good};
use second::cases::random::Random;
use second::cases::script::Packed;
use second::cases::{assert_given_back, large, read_whole, write_whole};
use second::directory::MOST_NAMES;
use second::memory::{Call, Memory};
use second::refusal::DONE;

/// Every kept name is its rows printed end to end, and has the distance that it was put at, none
/// of which is above its number.
fn assert_kept_well(memory: &Memory, distances: &[u32]) {
    let [_, kept, text_used, rows_used] = memory.state_numbers();
    let mut text_end = 0;
    let mut row_end = 0;
    for (number, distance) in (0..kept).zip(distances) {
        let entry = memory.entry(number);
        assert_eq!(entry.text_start, text_end);
        text_end += entry.text_length + 1;
        assert_eq!(memory.text.get()[text_end as usize - 1], b'\n');
        assert!(entry.distance == *distance && entry.distance <= number);
        let rows = entry.first_row..entry.first_row + entry.row_count;
        let texts: Vec<u8> = rows.clone().flat_map(|row| text_of(memory, row)).collect();
        assert_eq!(texts, memory.kept_names()[number as usize]);
        row_end = row_end.max(rows.end);
    }
    assert_eq!([text_end, row_end], [text_used, rows_used]);
}

/// The row's text, which for a number row must be its printing.
fn text_of(memory: &Memory, row: u32) -> Vec<u8> {
    let row = memory.row(row);
    let start = row[3] as usize;
    let text = memory.text.get()[start..start + row[4] as usize].to_vec();
    let number = row[1];
    match row[0] {
        4 => assert_eq!(
            text,
            format!("{number:0>width$}", width = row[2] as usize).into_bytes()
        ),
        7 => assert_eq!((text.clone(), 0), (number.to_string().into_bytes(), row[2])),
        kind => assert!([1, 2].contains(&kind) && row[1..3] == [0, 0]),
    }
    text
}

#[test]
fn planned_blocks_read_as_they_were_meant() {
    let mut reach = Reach::default();
    for seed in 0..3_000 {
        let planned = planned(&mut Random::new(seed), 12);
        let (answer, memory) = read_whole(&planned.block);
        assert_eq!(answer, (DONE, planned.block.count), "seed {seed}");
        assert_eq!(memory.kept_names(), planned.names, "seed {seed}");
        assert_kept_well(&memory, &planned.distances);
        reach.add(&planned.block, &memory);
    }
    reach.assert_far();
}

/// What the generated blocks had in them.
#[derive(Debug, Default)]
struct Reach {
    longest_name: u32,
    most_rows: u32,
    longest_chain: u32,
    distances_above_1: usize,
    fresh_starts: usize,
    names_on_fresh_ones: usize,
    names_past_fresh_ones: usize,
    strings_of_digits: usize,
    empty_strings: usize,
    numbers_of_ten_digits: usize,
    widths_above_ten: usize,
    overlapping_blocks: usize,
}

impl Reach {
    fn add(&mut self, block: &Packed, memory: &Memory) {
        let [_, kept, _, rows] = memory.state_numbers();
        let mut chains: Vec<u32> = Vec::new();
        for number in 0..kept {
            let entry = memory.entry(number);
            self.longest_name = self.longest_name.max(entry.text_length);
            self.most_rows = self.most_rows.max(entry.row_count);
            self.distances_above_1 += usize::from(entry.distance > 1);
            let earlier = number - entry.distance;
            let is_fresh = |number| number > 0 && memory.entry(number).distance == 0;
            self.fresh_starts += usize::from(is_fresh(number));
            self.names_on_fresh_ones += usize::from(earlier < number && is_fresh(earlier));
            self.names_past_fresh_ones += usize::from((earlier + 1..number).any(is_fresh));
            let is_dup = entry.distance > 0 && memory.entry(earlier).first_row == entry.first_row;
            let chain = if is_dup {
                chains[earlier as usize] + 1
            } else {
                0
            };
            self.longest_chain = self.longest_chain.max(chain);
            chains.push(chain);
        }
        (0..rows).for_each(|row| self.add_row(memory, row));
        self.overlapping_blocks += usize::from(has_overlap(block));
    }

    fn add_row(&mut self, memory: &Memory, row: u32) {
        let text = text_of(memory, row);
        let digits = text.iter().all(u8::is_ascii_digit);
        match *memory.row(row) {
            [1, .., 0] => self.empty_strings += 1,
            [1, ..] if digits => self.strings_of_digits += 1,
            [4, _, width, ..] if width > 10 => self.widths_above_ten += 1,
            [4 | 7, number, ..] if number >= 1_000_000_000 => self.numbers_of_ten_digits += 1,
            _ => {}
        }
    }

    fn assert_far(&self) {
        let limits = (self.longest_name, self.most_rows);
        assert_eq!(limits, (254, 127), "{self:?}");
        assert!(self.longest_chain >= 6, "{self:?}");
        let often = [
            self.distances_above_1,
            self.fresh_starts,
            self.names_on_fresh_ones,
            self.names_past_fresh_ones,
            self.strings_of_digits,
            self.empty_strings,
            self.numbers_of_ten_digits,
            self.widths_above_ten,
            self.overlapping_blocks,
        ];
        assert!(often.iter().all(|times| *times >= 500), "{self:?}");
    }
}

/// Two spans of the block have a byte in common.
fn has_overlap(block: &Packed) -> bool {
    let spans = block.directory.chunks_exact(2);
    let mut used: Vec<&[u32]> = spans.filter(|span| span[0] < span[1]).collect();
    used.sort_unstable();
    used.windows(2).any(|pair| pair[1][0] < pair[0][1])
}

#[test]
fn written_names_read_back() {
    let mut rests = 0;
    let mut given_back = 0;
    for seed in 0..3_000 {
        let names = good(&mut Random::new(seed), 12);
        let input = ended(&names);
        let (written, mut memory) = write_whole(&input, names.len());
        let count = names.len() as u32;
        assert!(
            memory.total_numbers()[1] as usize <= 6 * input.len(),
            "seed {seed}"
        );
        assert_eq!(written, (0, memory.total_numbers()[1]), "seed {seed}");
        assert_eq!(memory.total_numbers()[0], count, "seed {seed}");
        assert_laid_out(&memory);
        let answer = memory.ask(&Call::ReadBlock { count });
        assert_eq!(answer, (DONE, count), "seed {seed}");
        assert_eq!(memory.kept_names(), names, "seed {seed}");
        // The writer starts afresh at name 0 and nowhere else.
        let distances: Vec<u32> = (0..count).map(|number| number.min(1)).collect();
        assert_kept_well(&memory, &distances);
        rests += (0..count)
            .filter(|number| memory.entry(*number).row_count == 127)
            .count();
        given_back += assert_given_back(&input, &memory);
    }
    assert!(rests > 100, "only {rests} names of 127 tokens");
    assert_eq!(given_back, 2 * 3_000);
}

/// What the header and the binding say of room for writing: six times the input suffices, and nothing less.
#[test]
fn the_name_that_takes_most() {
    let (written, _) = write_whole(b"0\n", 1);
    assert_eq!(written, (0, 12));
}

/// Spans in order with no gaps, the total the end of the last, and nothing behind it.
fn assert_laid_out(memory: &Memory) {
    let directory = memory.directory.get();
    assert_eq!(directory[0], 0);
    assert!(directory.chunks_exact(2).all(|span| span[0] <= span[1]));
    assert!(directory[1..]
        .chunks_exact(2)
        .all(|joint| joint[0] == joint[1]));
    let total = memory.total_numbers()[1];
    assert_eq!(directory.last(), Some(&total));
    assert!(memory.bytes.get()[total as usize..]
        .iter()
        .all(|byte| *byte == 0xEE));
}

#[test]
fn the_largest_blocks() {
    let mut whole = 0;
    let mut given_back = 0;
    for case in large::cases() {
        let mut memory = case.memory;
        let answers: Vec<(u32, u32)> = case.calls.iter().map(|call| memory.ask(call)).collect();
        let Call::Write { input } = &case.calls[0] else {
            panic!("a large case begins with its writing")
        };
        if answers[1] == (DONE, MOST_NAMES) {
            assert_eq!(memory.text.get(), input);
            assert_eq!(answers[4], (0, 1));
            whole += 1;
            given_back += assert_given_back(input, &memory);
        }
    }
    assert_eq!((whole, given_back), (3, 2 * 3));
}
