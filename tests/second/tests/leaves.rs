//! The leaf functions beside another way to compute them, and beside the linked ones.

use second::cases::random::Random;
use second::cases::script::Script;
use second::class::{self, Class};
use second::directory::{DIRECTORY, SPANS};
use second::leaf::{Leaves, SecondLeaves, NONE};

/// The same leaves by plain arithmetic and indexing.
struct Arithmetic;

impl Arithmetic {
    fn put(number: u64, width: u64, buffer: &mut [u8], at: usize) -> u64 {
        if at as u128 + width as u128 > buffer.len() as u128 {
            return NONE;
        }
        let mut left = number;
        for place in (at..at + width as usize).rev() {
            buffer[place] = b'0' + (left % 10) as u8;
            left /= 10;
        }
        width
    }

    fn short(bytes: &[u8], at: u32, end: u32, wanted: u64) -> bool {
        end as usize > bytes.len() || u64::from(at) + wanted > u64::from(end)
    }
}

impl Leaves for Arithmetic {
    fn print(&self, number: u32, buffer: &mut [u8], at: usize) -> u64 {
        let width = (1..).find(|width| u64::from(number) < 10_u64.pow(*width));
        Self::put(number.into(), width.unwrap().into(), buffer, at)
    }

    fn print_padded(&self, number: u32, width: u32, buffer: &mut [u8], at: usize) -> u64 {
        if width > 254 || self.fits(number, width) == 0 {
            return NONE;
        }
        Self::put(number.into(), width.into(), buffer, at)
    }

    fn fits(&self, number: u32, width: u32) -> u32 {
        let power = 10_u64.pow(width.min(15));
        u32::from(width != 0 && u64::from(number) < power)
    }

    fn class(&self, byte: u8) -> u32 {
        let allowed = byte > 32 && byte < 127 && byte != 64;
        let letter = (65..91).contains(&(byte & !32));
        u32::from(allowed) + u32::from((48..58).contains(&byte)) + 2 * u32::from(letter)
    }

    fn byte(&self, bytes: &[u8], at: u32, end: u32) -> u64 {
        if Self::short(bytes, at, end, 1) {
            return NONE;
        }
        (u64::from(at) + 1) * (1 << 32) + u64::from(bytes[at as usize])
    }

    fn four(&self, bytes: &[u8], at: u32, end: u32, next: &mut [u32; 1]) -> u64 {
        if Self::short(bytes, at, end, 4) {
            return NONE;
        }
        next[0] = at + 4;
        let byte = |place: usize| u64::from(bytes[at as usize + place]);
        byte(0) + 256 * byte(1) + 65_536 * byte(2) + 16_777_216 * byte(3)
    }

    fn text(&self, bytes: &[u8], at: u32, end: u32) -> u64 {
        if Self::short(bytes, at, end, 1) {
            return NONE;
        }
        let zero = (at..end).find(|place| bytes[*place as usize] == 0);
        zero.map_or(NONE, u64::from)
    }

    fn judge(&self, bytes: &[u8], directory: &[u32], cursors: &[u32]) -> u32 {
        if directory.len() != DIRECTORY || cursors.len() != SPANS {
            return 1;
        }
        let bounds = |place: usize| (directory[2 * place], directory[2 * place + 1]);
        let bad = |place: usize| bounds(place).0 > bounds(place).1;
        let above = |place: usize| bounds(place).1 as usize > bytes.len();
        if (0..SPANS).any(|place| bad(place) || above(place)) {
            return 1;
        }
        let outside =
            |place: usize| cursors[place] < bounds(place).0 || cursors[place] > bounds(place).1;
        if (0..SPANS).any(outside) {
            13
        } else {
            0
        }
    }
}

/// Compares and counts; the first difference ends it.
struct Count<'a> {
    left: &'a dyn Leaves,
    right: &'a dyn Leaves,
    made: u64,
}

type Compared = Result<(), String>;

impl Count<'_> {
    /// One leaf on two copies of the same buffer.
    fn same<B, A>(
        &mut self,
        words: &str,
        buffer: &B,
        call: impl Fn(&dyn Leaves, &mut B) -> A,
    ) -> Compared
    where
        B: Clone + PartialEq + std::fmt::Debug,
        A: PartialEq + std::fmt::Debug,
    {
        let (mut left, mut right) = (buffer.clone(), buffer.clone());
        let answers = (call(self.left, &mut left), call(self.right, &mut right));
        self.made += 1;
        if answers.0 == answers.1 && left == right {
            Ok(())
        } else {
            Err(format!(
                "{words}: {answers:?}, buffers {left:?} and {right:?}"
            ))
        }
    }

    fn classes(&mut self) -> Compared {
        for byte in 0..=255 {
            self.same(&format!("class {byte}"), &(), |leaves, _| {
                leaves.class(byte)
            })?;
        }
        Ok(())
    }

    fn numbers(&mut self) -> Compared {
        for number in telling_numbers() {
            for width in 0..=260 {
                let words = format!("fits {number} {width}");
                self.same(&words, &(), |leaves, _| leaves.fits(number, width))?;
            }
            for width in [u32::MAX, u32::MAX - 9, 1 << 31, 65_536, 257] {
                let words = format!("fits {number} {width}");
                self.same(&words, &(), |leaves, _| leaves.fits(number, width))?;
            }
        }
        Ok(())
    }

    fn prints(&mut self) -> Compared {
        for number in telling_numbers() {
            for length in 0..=13 {
                for at in [0, 1, 2, length, length + 1, usize::MAX, usize::MAX - 5] {
                    let words = format!("print {number} at {at} of {length}");
                    let buffer = vec![0xEE; length];
                    self.same(&words, &buffer, |leaves, buffer| {
                        leaves.print(number, buffer, at)
                    })?;
                }
            }
        }
        Ok(())
    }

    fn padded_prints(&mut self) -> Compared {
        for number in telling_numbers() {
            for width in (0..=20).chain(250..=260).chain([u32::MAX]) {
                let exact = width.min(300) as usize;
                for (length, at) in [(exact, 0), (exact + 3, 2), (exact + 3, 4), (4, usize::MAX)] {
                    let words = format!("print {number} at width {width} at {at} of {length}");
                    let buffer = vec![0xEE; length];
                    self.same(&words, &buffer, |leaves, buffer| {
                        leaves.print_padded(number, width, buffer, at)
                    })?;
                }
            }
        }
        Ok(())
    }

    fn spans(&mut self, random: &mut Random) -> Compared {
        for _ in 0..400 {
            let length = random.below(9);
            let byte = |_| random.pick(&[0, 1, 65, 127, 128, 255]);
            let bytes: Vec<u8> = (0..length).map(byte).collect();
            for at in 0..=length as u32 + 1 {
                for end in 0..=length as u32 + 2 {
                    self.span(&bytes, at, end)?;
                }
            }
            self.span(&bytes, u32::MAX, u32::MAX)?;
            self.span(&bytes, 0, u32::MAX)?;
            self.span(&bytes, u32::MAX - 1, 2)?;
        }
        Ok(())
    }

    fn span(&mut self, bytes: &[u8], at: u32, end: u32) -> Compared {
        let words = format!("{bytes:?} from {at} to {end}");
        self.same(&words, &(), |leaves, _| leaves.byte(bytes, at, end))?;
        self.same(&words, &[77], |leaves, next| {
            leaves.four(bytes, at, end, next)
        })?;
        self.same(&words, &(), |leaves, _| leaves.text(bytes, at, end))
    }

    fn judgements(&mut self, random: &mut Random) -> Compared {
        let block = Script::new()
            .diff(0)
            .string(b"name")
            .digits(7)
            .end()
            .packed();
        for turn in 0..6_000 {
            let mut directory = block.directory.clone();
            let mut cursors: Vec<u32> = directory.iter().step_by(2).copied().collect();
            let place = random.below(SPANS);
            let bound = directory[2 * place + random.below(2)];
            let changed = random.pick(&[bound, bound.wrapping_sub(1), bound + 1, u32::MAX, 0]);
            match random.below(8) {
                0 | 1 => directory[2 * place] = changed,
                2 | 3 => directory[2 * place + 1] = changed,
                4..=6 => cursors[place] = changed,
                _ => shorten(random, &mut directory, &mut cursors),
            }
            let words = format!("judge, turn {turn}, span {place}, number {changed}");
            self.same(&words, &(), |leaves, _| {
                leaves.judge(&block.bytes, &directory, &cursors)
            })?;
        }
        Ok(())
    }
}

fn shorten(random: &mut Random, directory: &mut Vec<u32>, cursors: &mut Vec<u32>) {
    match random.below(4) {
        0 => drop(directory.pop()),
        1 => directory.push(0),
        2 => drop(cursors.pop()),
        _ => cursors.push(0),
    }
}

/// All small numbers, those around every power of ten and the largest, each digit at each
/// place, and every beginning of two numbers in which no digit stands twice.
fn telling_numbers() -> Vec<u32> {
    let powers = (1..10).flat_map(|power| {
        let power = 10_u32.pow(power);
        power - 2..=power + 1
    });
    let largest = u32::MAX - 3..=u32::MAX;
    let digit = |place| (1..10).filter_map(move |digit| 10_u32.pow(place).checked_mul(digit));
    let begun = |number: u32| (0..10).map(move |place| number / 10_u32.pow(place));
    (0..120)
        .chain(powers)
        .chain(largest)
        .chain((0..10).flat_map(digit))
        .chain(begun(1_234_567_890))
        .chain(begun(3_987_654_210))
        .collect()
}

/// Numbers as they are printed, plainly or at a width.
const HELD: [(u32, Option<u32>, &str); 16] = [
    (0, None, "0"),
    (7, None, "7"),
    (9, None, "9"),
    (10, None, "10"),
    (99, None, "99"),
    (100, None, "100"),
    (999_999_999, None, "999999999"),
    (1_000_000_000, None, "1000000000"),
    (1_234_567_890, None, "1234567890"),
    (u32::MAX, None, "4294967295"),
    (0, Some(1), "0"),
    (0, Some(3), "000"),
    (123, Some(5), "00123"),
    (99, Some(2), "99"),
    (u32::MAX, Some(10), "4294967295"),
    (u32::MAX, Some(12), "004294967295"),
];

fn hold(leaves: &dyn Leaves) {
    for (number, width, printed) in HELD {
        let mut buffer = vec![0xEE; printed.len() + 2];
        let answer = match width {
            None => leaves.print(number, &mut buffer, 1),
            Some(width) => leaves.print_padded(number, width, &mut buffer, 1),
        };
        assert_eq!(answer, printed.len() as u64, "{number} at {width:?}");
        let wanted = [&[0xEE], printed.as_bytes(), &[0xEE]].concat();
        assert_eq!(buffer, wanted, "{number} at {width:?}");
    }
}

#[test]
fn second_program_prints_as_held() {
    hold(&SecondLeaves);
}

fn compare(left: &dyn Leaves, right: &dyn Leaves) -> Result<u64, String> {
    let mut random = Random::new(29);
    let mut count = Count {
        left,
        right,
        made: 0,
    };
    count.classes()?;
    count.numbers()?;
    count.prints()?;
    count.padded_prints()?;
    count.spans(&mut random)?;
    count.judgements(&mut random)?;
    Ok(count.made)
}

#[test]
fn second_program_beside_plain_arithmetic() {
    let made = compare(&SecondLeaves, &Arithmetic).unwrap();
    assert!(made >= 100_000, "only {made} comparisons");
}

/// One leaf wrong at a time; which one is the number.
struct Wrong(usize);

impl Leaves for Wrong {
    fn print(&self, number: u32, buffer: &mut [u8], at: usize) -> u64 {
        let number = match self.0 {
            8 if number >= 1_000_000_000 => number % 1_000_000_000,
            _ => number,
        };
        if self.0 == 9 && number == 0 && at < buffer.len() {
            return 0;
        }
        let answer = SecondLeaves.print(number, buffer, at);
        if self.0 == 0 && answer == NONE && at < buffer.len() {
            buffer[at] = b'0';
        }
        answer
    }

    fn print_padded(&self, number: u32, width: u32, buffer: &mut [u8], at: usize) -> u64 {
        if self.0 == 1 && width == 255 && at + 255 <= buffer.len() {
            return 255;
        }
        let answer = SecondLeaves.print_padded(number, width, buffer, at);
        if self.0 == 10 && answer != NONE && number > 0 {
            let printed = &mut buffer[at..at + width as usize];
            let zeros = printed.iter().take_while(|byte| **byte == b'0').count();
            printed.rotate_left(zeros);
        }
        answer
    }

    fn fits(&self, number: u32, width: u32) -> u32 {
        if self.0 == 2 && number == 0 {
            return 1;
        }
        SecondLeaves.fits(number, width)
    }

    fn class(&self, byte: u8) -> u32 {
        match (self.0, byte) {
            (3, b'@') => 1,
            (11, b'[') => 3,
            (12, b'z') => 1,
            _ => SecondLeaves.class(byte),
        }
    }

    fn byte(&self, bytes: &[u8], at: u32, end: u32) -> u64 {
        let end = if self.0 == 4 { bytes.len() as u32 } else { end };
        SecondLeaves.byte(bytes, at, end)
    }

    fn four(&self, bytes: &[u8], at: u32, end: u32, next: &mut [u32; 1]) -> u64 {
        let answer = SecondLeaves.four(bytes, at, end, next);
        if self.0 == 5 && answer == NONE {
            *next = [at];
        }
        answer
    }

    fn text(&self, bytes: &[u8], at: u32, end: u32) -> u64 {
        let end = if self.0 == 6 {
            end.saturating_add(1)
        } else {
            end
        };
        SecondLeaves.text(bytes, at, end)
    }

    fn judge(&self, bytes: &[u8], directory: &[u32], cursors: &[u32]) -> u32 {
        let answer = SecondLeaves.judge(bytes, directory, cursors);
        if self.0 == 7 && answer == 13 {
            return 0;
        }
        answer
    }
}

/// Ten digits, fifty-two letters and the rest; so many are allowed by SAM.
#[test]
fn the_classes_counted() {
    let class = |wanted| (0..=255).filter(|byte| class::of(*byte) == wanted).count();
    let counts = [Class::Digit, Class::Letter, Class::Other].map(class);
    assert_eq!(counts, [10, 52, 194]);
    let number = |wanted| {
        (0..=255)
            .filter(|byte| class::number(*byte) == wanted)
            .count()
    };
    assert_eq!([0, 1, 2, 3].map(number), [163, 31, 10, 52]);
    for byte in *b"@[`{/:" {
        assert_eq!(class::of(byte), Class::Other);
    }
}

#[test]
fn every_wrong_leaf_is_found() {
    for number in 0..13 {
        let found = compare(&SecondLeaves, &Wrong(number));
        assert!(found.is_err(), "wrong leaf {number} passed");
    }
    assert!(compare(&SecondLeaves, &Wrong(13)).is_ok());
}

#[cfg(feature = "leaves")]
#[test]
fn linked_leaves_print_as_held() {
    hold(&second::boundary::LinkedLeaves);
}

#[cfg(feature = "leaves")]
#[test]
fn second_program_beside_the_linked_leaves() {
    let made = compare(&SecondLeaves, &second::boundary::LinkedLeaves).unwrap();
    assert!(made >= 100_000, "only {made} comparisons");
}
