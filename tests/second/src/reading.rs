//! Opening, reading one name, reading a whole block.

use crate::directory::{Block, Spans, MOST_NAMES};
use crate::kept::Tables;
use crate::name;
use crate::refusal::{Answer, Reason, Refusal};

pub fn open(
    block: Block<'_>,
    count: u32,
    cursors: &mut [u32],
    state: &mut [u32; 4],
) -> Result<Answer, Refusal> {
    block.judge(cursors.len())?;
    if count > MOST_NAMES {
        return Err(Reason::Count.into());
    }
    for (cursor, (start, _)) in cursors.iter_mut().zip(block.bounds()) {
        *cursor = start;
    }
    *state = [count, 0, 0, 0];
    Ok(Answer::Opened)
}

pub fn read(
    block: Block<'_>,
    cursors: &mut [u32],
    tables: &mut Tables<'_>,
) -> Result<Answer, Refusal> {
    block.judge(cursors.len())?;
    let state = tables.judge()?;
    let mut spans = Spans::new(block, cursors)?;
    if state.kept == state.count {
        return if spans.all_read() {
            Ok(Answer::Done(state.kept))
        } else {
            Err(Reason::Unread.into())
        };
    }
    let carry = |reason: Reason| reason.at(state.kept);
    let new = name::read(&mut spans, state.kept, tables).map_err(carry)?;
    tables.keep(&new).map_err(carry)?;
    spans.store(cursors);
    Ok(Answer::Kept(state.kept))
}

/// "Opening, then reads until done or a refusal."
pub fn read_block(
    block: Block<'_>,
    count: u32,
    cursors: &mut [u32],
    tables: &mut Tables<'_>,
) -> Result<Answer, Refusal> {
    open(block, count, cursors, tables.state)?;
    loop {
        if let done @ Answer::Done(_) = read(block, cursors, tables)? {
            return Ok(done);
        }
    }
}
