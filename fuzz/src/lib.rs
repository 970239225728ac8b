//! One libFuzzer input, decoded into memory and calls, run on the library and on the second
//! program; answers and all lent memory, guards included, must be the same after every call.
//!
//! The first byte of an input picks the target. libFuzzer sees the second program's branches
//! (the archives aren't instrumented), and those are the same rules. The listing is reached
//! through the exports for tests.

#![deny(unsafe_code)]

mod block;
mod harm;
mod input;
mod pair;
mod targets;

use input::Input;
use second::compare::Tally;

/// libFuzzer's entry. A difference panics, which ends the process and keeps the input.
///
/// # Safety
/// `data` points to `length` bytes, as libFuzzer says; a null pointer comes with length 0.
#[allow(unsafe_code)]
#[no_mangle]
pub unsafe extern "C" fn LLVMFuzzerTestOneInput(data: *const u8, length: usize) -> i32 {
    if length > 0 {
        // SAFETY: the caller's promise, and the bytes stay for the call.
        let bytes = unsafe { std::slice::from_raw_parts(data, length) };
        run(&mut Input::new(bytes));
    }
    0
}

/// Runs an input: how often it made each round trip.
fn run(input: &mut Input<'_>) -> Tally {
    match input.below(5) {
        0 => targets::whole_block(input),
        1 => return targets::call_sequence(input),
        2 => return targets::writing(input),
        3 => targets::listing(input),
        _ => targets::replay(input),
    }
    Tally::new()
}

#[cfg(test)]
mod tests {
    use super::*;
    use second::refusal::DONE;
    use second::round::WAYS;
    use std::fs;

    /// Fuzzing starts from the corpus, so that it makes every round trip that the corpus makes.
    #[test]
    fn the_corpus_makes_round_trips() {
        let corpus = fs::read_dir(concat!(env!("CARGO_MANIFEST_DIR"), "/corpus")).unwrap();
        let mut made = [0; 2];
        for file in corpus {
            let bytes = fs::read(file.unwrap().path()).unwrap();
            let trips = run(&mut Input::new(&bytes));
            for (made, way) in made.iter_mut().zip(&WAYS) {
                *made += trips.get(&(way.word, DONE)).copied().unwrap_or(0);
            }
        }
        assert!(made.iter().all(|times| *times > 0), "{made:?}");
    }
}
