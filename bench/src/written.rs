//! What writing makes of names: the bytes of their streams, as they are and as an ideal coder of
//! single bytes would have them, and how many of their tokens lean on the name before.

use crate::names::{Names, FAMILIES};
use crate::work::each_block;
use second::directory::{Block, Stream, MOST_NAMES, STREAMS};
use second::token::Type;

pub fn print(names: Option<Names>) -> Result<(), String> {
    println!(
        "
Written, a name: bytes; the same coded, each span's bytes by how often they stand in it; tokens (END and DUPs left out),
and those of them that are MATCH or a delta"
    );
    println!(
        "{:14} {:>8} {:>8} {:>8} {:>8} {:>8} {:>8}",
        "names", "count", "bytes", "coded", "tokens", "MATCH", "deltas"
    );
    match names {
        Some(names) => line(&names),
        None => {
            let mut families = FAMILIES.iter();
            families.try_for_each(|family| line(&family.names(MOST_NAMES)))
        }
    }
}

fn line(names: &Names) -> Result<(), String> {
    let mut all = Written::default();
    each_block(&[names], |works| {
        works.iter().for_each(|work| all.add(work.block()));
        Ok(())
    })?;
    let count = names.count();
    let a_name = |number: usize| number as f64 / count as f64;
    println!(
        "{:14} {count:>8} {:>8.2} {:>8.2} {:>8.2} {:>8.2} {:>8.2}",
        names.word,
        a_name(all.bytes),
        all.coded / count as f64,
        a_name(all.tokens),
        a_name(all.matches),
        a_name(all.deltas)
    );
    Ok(())
}

#[derive(Default)]
struct Written {
    bytes: usize,
    coded: f64,
    tokens: usize,
    matches: usize,
    deltas: usize,
}

impl Written {
    /// A block's streams lie one after another, so that its bytes are theirs.
    fn add(&mut self, block: Block) {
        self.bytes += block.bytes.len();
        for (span, (start, end)) in block.bounds().enumerate() {
            let bytes = &block.bytes[start as usize..end as usize];
            self.coded += coded(bytes);
            if span % STREAMS == Stream::Type as usize && span >= STREAMS {
                self.add_types(bytes);
            }
        }
    }

    fn add_types(&mut self, types: &[u8]) {
        let count = |known: &[Type]| {
            let is_known = |byte: &&u8| Type::of(**byte).is_ok_and(|kind| known.contains(&kind));
            types.iter().filter(is_known).count()
        };
        self.tokens += types.len() - count(&[Type::End]);
        self.matches += count(&[Type::Match]);
        self.deltas += count(&[Type::Ddelta, Type::Ddelta0]);
    }
}

/// The bytes that a span takes if each byte takes as many bits as how often it stands there says.
fn coded(span: &[u8]) -> f64 {
    let mut times = [0_u32; 256];
    span.iter().for_each(|byte| times[usize::from(*byte)] += 1);
    let met = times.iter().filter(|times| **times > 0);
    let bits = |times: &u32| f64::from(*times) * (span.len() as f64 / f64::from(*times)).log2();
    met.map(bits).sum::<f64>() / 8.0
}
