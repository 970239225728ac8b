//! Names: as instruments give them, made from a seed; or those of a file.

use second::cases::random::Random;
use second::directory::MOST_NAMES;
use std::path::Path;

/// Names to measure with, as the inputs of blocks: each name ended by byte 10.
#[derive(Clone)]
pub struct Names {
    pub word: String,
    pub blocks: Vec<Vec<u8>>,
    /// Every so many-th name of a block starts afresh; none but the first where there is no number.
    pub afresh: Option<usize>,
}

impl Names {
    fn one_block(word: &str, input: Vec<u8>) -> Names {
        Names {
            word: word.to_string(),
            blocks: vec![input],
            afresh: None,
        }
    }

    /// The same names, every so many-th starting afresh.
    pub fn afresh(&self, every: usize) -> Names {
        Names {
            afresh: Some(every),
            ..self.clone()
        }
    }

    /// Those of a family, or of a file.
    pub fn of(word: &str) -> Result<Names, String> {
        match FAMILIES.iter().find(|family| family.word == word) {
            Some(family) => Ok(family.names(COUNTED)),
            None => Names::of_file(word),
        }
    }

    /// A name a line, be the last one ended or not; a block is full before the next begins.
    fn of_file(path: &str) -> Result<Names, String> {
        let mut input = std::fs::read(path).map_err(|error| format!("{path}: {error}"))?;
        if input.is_empty() {
            return Err(format!("{path} has no names"));
        }
        if !input.ends_with(b"\n") {
            input.push(b'\n');
        }
        let lines: Vec<&[u8]> = input.split_inclusive(|byte| *byte == b'\n').collect();
        let blocks = lines.chunks(MOST_NAMES as usize);
        let name = Path::new(path).file_name().unwrap_or_default();
        Ok(Names {
            word: name.to_string_lossy().into_owned(),
            blocks: blocks.map(|block| block.concat()).collect(),
            afresh: None,
        })
    }

    pub fn count(&self) -> usize {
        let ends = self.blocks.iter().flatten().filter(|byte| **byte == b'\n');
        ends.count()
    }
}

/// A family of names: the name that follows, from what went before.
pub struct Family {
    word: &'static str,
    next: fn(&mut Random, &mut [usize; 2]) -> String,
}

pub const FAMILIES: [Family; 4] = [
    Family {
        word: "Illumina-like",
        next: illumina,
    },
    Family {
        word: "PacBio-like",
        next: pacbio,
    },
    Family {
        word: "Nanopore-like",
        next: nanopore,
    },
    Family {
        word: "random",
        next: random,
    },
];

pub const ILLUMINA: &Family = &FAMILIES[0];

/// How many of a family's names are measured, unless another number is said.
pub const COUNTED: u32 = 1_000;

impl Family {
    /// So many names, in one block.
    pub fn names(&self, count: u32) -> Names {
        let mut random = Random::new(0x6E61_6D65);
        let mut last = [1_000, 1_000];
        let mut input = Vec::new();
        for _ in 0..count {
            input.extend((self.next)(&mut random, &mut last).bytes());
            input.push(b'\n');
        }
        Names::one_block(self.word, input)
    }
}

/// Clusters of a tile in order of one coordinate, the other one anywhere.
fn illumina(random: &mut Random, last: &mut [usize; 2]) -> String {
    last[0] += random.below(3);
    let (x, y) = (last[0] % 33_000, random.between(1_000, 37_000));
    format!("A00253:148:HM7TYDSXX:1:1101:{x}:{y}")
}

/// Several passes of a hole, one behind the other.
fn pacbio(random: &mut Random, last: &mut [usize; 2]) -> String {
    if random.percent(30) {
        *last = [last[0] + random.between(1, 600), 0];
    }
    let start = last[1];
    last[1] += random.between(500, 15_000);
    format!("m64011_190830_220126/{}/{start}_{}", last[0], last[1])
}

/// A random 128-bit identifier.
fn nanopore(random: &mut Random, _: &mut [usize; 2]) -> String {
    let mut part = |digits: u32| {
        let number = u64::from(random.number()) << 32 | u64::from(random.number());
        let width = digits as usize;
        format!("{:0width$x}", number >> (64 - 4 * digits))
    };
    let groups = [8, 4, 4, 4, 12].map(&mut part);
    groups.join("-")
}

fn random(random: &mut Random, _: &mut [usize; 2]) -> String {
    let length = random.between(1, 60);
    (0..length).map(|_| char::from(random.allowed())).collect()
}

/// Names of so many tokens, a letter and a digit by turns, the digits anything but 0.
pub fn of_tokens(tokens: usize, count: u32) -> Names {
    let mut random = Random::new(tokens as u64);
    let mut input = Vec::new();
    for _ in 0..count {
        let byte = |place| match place % 2 {
            0 => random.pick(b"acgt"),
            _ => random.pick(b"123456789"),
        };
        input.extend((0..tokens).map(byte));
        input.push(b'\n');
    }
    Names::one_block("of tokens", input)
}
