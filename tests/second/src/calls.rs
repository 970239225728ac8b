//! The calls of the C boundary, behind one trait.

use crate::claim::{claim, KeptText};
use crate::directory::Block;
use crate::kept::Tables;
use crate::model::{replay, Model, RULE};
use crate::reading::{open, read, read_block};
use crate::refusal::pack;
use crate::writing::write;

/// Arguments in the order of the C functions; answers packed as they pack them.
pub trait Calls {
    fn open(&self, block: Block<'_>, count: u32, cursors: &mut [u32], state: &mut [u32; 4]) -> u64;
    fn read(&self, block: Block<'_>, cursors: &mut [u32], tables: Tables<'_>) -> u64;
    fn read_block(
        &self,
        block: Block<'_>,
        count: u32,
        cursors: &mut [u32],
        tables: Tables<'_>,
    ) -> u64;
    fn claim(&self, number: u32, claimed: &[u8], kept: KeptText<'_>) -> u64;
    fn write(
        &self,
        input: &[u8],
        directory: &mut [u32],
        bytes: &mut [u8],
        totals: &mut [u32; 2],
    ) -> u64;
    fn model_replay(&self, size: u32, trace: &[u8], model: Model<'_>) -> u64;
}

/// The second program itself.
pub struct Second;

impl Calls for Second {
    fn open(&self, block: Block<'_>, count: u32, cursors: &mut [u32], state: &mut [u32; 4]) -> u64 {
        pack(open(block, count, cursors, state))
    }

    fn read(&self, block: Block<'_>, cursors: &mut [u32], mut tables: Tables<'_>) -> u64 {
        pack(read(block, cursors, &mut tables))
    }

    fn read_block(
        &self,
        block: Block<'_>,
        count: u32,
        cursors: &mut [u32],
        mut tables: Tables<'_>,
    ) -> u64 {
        pack(read_block(block, count, cursors, &mut tables))
    }

    fn claim(&self, number: u32, claimed: &[u8], kept: KeptText<'_>) -> u64 {
        pack(claim(number, claimed, kept))
    }

    fn write(
        &self,
        input: &[u8],
        directory: &mut [u32],
        bytes: &mut [u8],
        totals: &mut [u32; 2],
    ) -> u64 {
        pack(write(input, directory, bytes, totals))
    }

    fn model_replay(&self, size: u32, trace: &[u8], mut model: Model<'_>) -> u64 {
        pack(replay(RULE, size, trace, &mut model))
    }
}
