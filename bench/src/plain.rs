//! The judgement that a read begins with, `block::judge`, as a plain loop over the same tables: of
//! each of the 1,290 spans and cursors the three comparisons that the library makes, of 32 bits each.

use second::directory::{DIRECTORY, SPANS};

/// The directory unsound; sound, and a cursor outside its span; or neither.
#[derive(Debug, PartialEq, Eq)]
pub enum Verdict {
    Unsound,
    Outside,
    Inside,
}

/// As the library does it: every span is looked at, whatever the ones before it were, and only where
/// one fails is it asked which of the two it is.
pub fn without_way_out(bytes: usize, directory: &[u32], cursors: &[u32]) -> Verdict {
    if directory.len() != DIRECTORY || cursors.len() != SPANS {
        return Verdict::Unsound;
    }
    let reach = reach(bytes);
    let mut fine = true;
    for (span, cursor) in directory.chunks_exact(2).zip(cursors) {
        fine &= is_fine(span, *cursor, reach);
    }
    if fine {
        Verdict::Inside
    } else if are_sound(directory, reach) {
        Verdict::Outside
    } else {
        Verdict::Unsound
    }
}

/// The first unsound span ends it. A cursor outside doesn't: a span behind it may be unsound, which
/// is said first. Only of a span that fails is it asked which of the two it is.
pub fn with_way_out(bytes: usize, directory: &[u32], cursors: &[u32]) -> Verdict {
    if directory.len() != DIRECTORY || cursors.len() != SPANS {
        return Verdict::Unsound;
    }
    let reach = reach(bytes);
    let mut verdict = Verdict::Inside;
    for (span, cursor) in directory.chunks_exact(2).zip(cursors) {
        if !is_fine(span, *cursor, reach) {
            if !is_sound(span, reach) {
                return Verdict::Unsound;
            }
            verdict = Verdict::Outside;
        }
    }
    verdict
}

/// An end has 32 bits, so a length above them is as good as the largest.
fn reach(bytes: usize) -> u32 {
    u32::try_from(bytes).unwrap_or(u32::MAX)
}

fn is_sound(span: &[u32], reach: u32) -> bool {
    (span[0] <= span[1]) & (span[1] <= reach)
}

/// Sound, and its cursor inside, which tells too that the start isn't above the end.
fn is_fine(span: &[u32], cursor: u32, reach: u32) -> bool {
    (span[0] <= cursor) & (cursor <= span[1]) & (span[1] <= reach)
}

fn are_sound(directory: &[u32], reach: u32) -> bool {
    let spans = directory.chunks_exact(2);
    spans.fold(true, |sound, span| sound & is_sound(span, reach))
}
