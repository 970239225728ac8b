//! The C libraries, in safe wrappers. The only unsafe code of the package.

#![allow(unsafe_code)]

/// Length 0 may come with a null pointer, so it does.
fn start<T>(slice: &[T]) -> *const T {
    if slice.is_empty() {
        std::ptr::null()
    } else {
        slice.as_ptr()
    }
}

fn start_mut<T>(slice: &mut [T]) -> *mut T {
    if slice.is_empty() {
        std::ptr::null_mut()
    } else {
        slice.as_mut_ptr()
    }
}

#[cfg(feature = "linked")]
pub use linked::Linked;

#[cfg(feature = "linked")]
mod linked {
    use super::{start, start_mut};
    use crate::calls::Calls;
    use crate::claim::KeptText;
    use crate::directory::Block;
    use crate::kept::Tables;
    use crate::model::Model;

    // A slice a line.
    #[rustfmt::skip]
    extern "C" {
        fn aq_open(
            bytes: *const u8, bytes_len: usize,
            directory: *const u32, directory_len: usize,
            count: u32,
            cursors: *mut u32, cursors_len: usize,
            state: *mut u32,
        ) -> u64;
        fn aq_read(
            bytes: *const u8, bytes_len: usize,
            directory: *const u32, directory_len: usize,
            cursors: *mut u32, cursors_len: usize,
            text: *mut u8, text_len: usize,
            names: *mut u32, names_len: usize,
            rows: *mut u32, rows_len: usize,
            state: *mut u32,
        ) -> u64;
        fn aq_read_block(
            bytes: *const u8, bytes_len: usize,
            directory: *const u32, directory_len: usize,
            count: u32,
            cursors: *mut u32, cursors_len: usize,
            text: *mut u8, text_len: usize,
            names: *mut u32, names_len: usize,
            rows: *mut u32, rows_len: usize,
            state: *mut u32,
        ) -> u64;
        fn aq_claim(
            number: u32,
            claim: *const u8, claim_len: usize,
            text: *const u8, text_len: usize,
            names: *const u32, names_len: usize,
            state: *const u32,
        ) -> u64;
        fn aq_write(
            input: *const u8, input_len: usize,
            directory: *mut u32, directory_len: usize,
            bytes: *mut u8, bytes_len: usize,
            totals: *mut u32,
        ) -> u64;
        fn aq_model_replay(
            size: u32,
            trace: *const u8, trace_len: usize,
            symbols: *mut u32, frequencies: *mut u32, total: *mut u32,
        ) -> u64;
    }

    /// The linked library. Every pointer below comes from a live slice of the length beside
    /// it, or from an array of the length the header names, and none overlap.
    pub struct Linked;

    #[rustfmt::skip]
    impl Calls for Linked {
        fn open(
            &self, block: Block<'_>, count: u32, cursors: &mut [u32], state: &mut [u32; 4],
        ) -> u64 {
            // SAFETY: see `Linked`.
            unsafe {
                aq_open(
                    start(block.bytes), block.bytes.len(),
                    start(block.directory), block.directory.len(),
                    count,
                    start_mut(cursors), cursors.len(),
                    state.as_mut_ptr(),
                )
            }
        }

        fn read(&self, block: Block<'_>, cursors: &mut [u32], tables: Tables<'_>) -> u64 {
            // SAFETY: see `Linked`.
            unsafe {
                aq_read(
                    start(block.bytes), block.bytes.len(),
                    start(block.directory), block.directory.len(),
                    start_mut(cursors), cursors.len(),
                    start_mut(tables.text), tables.text.len(),
                    start_mut(tables.names), tables.names.len(),
                    start_mut(tables.rows), tables.rows.len(),
                    tables.state.as_mut_ptr(),
                )
            }
        }

        fn read_block(
            &self, block: Block<'_>, count: u32, cursors: &mut [u32], tables: Tables<'_>,
        ) -> u64 {
            // SAFETY: see `Linked`.
            unsafe {
                aq_read_block(
                    start(block.bytes), block.bytes.len(),
                    start(block.directory), block.directory.len(),
                    count,
                    start_mut(cursors), cursors.len(),
                    start_mut(tables.text), tables.text.len(),
                    start_mut(tables.names), tables.names.len(),
                    start_mut(tables.rows), tables.rows.len(),
                    tables.state.as_mut_ptr(),
                )
            }
        }

        fn claim(&self, number: u32, claimed: &[u8], kept: KeptText<'_>) -> u64 {
            // SAFETY: see `Linked`.
            unsafe {
                aq_claim(
                    number,
                    start(claimed), claimed.len(),
                    start(kept.text), kept.text.len(),
                    start(kept.names), kept.names.len(),
                    kept.state.as_ptr(),
                )
            }
        }

        fn write(
            &self, input: &[u8], directory: &mut [u32], bytes: &mut [u8], totals: &mut [u32; 2],
        ) -> u64 {
            // SAFETY: see `Linked`.
            unsafe {
                aq_write(
                    start(input), input.len(),
                    start_mut(directory), directory.len(),
                    start_mut(bytes), bytes.len(),
                    totals.as_mut_ptr(),
                )
            }
        }

        fn model_replay(&self, size: u32, trace: &[u8], model: Model<'_>) -> u64 {
            // SAFETY: see `Linked`.
            unsafe {
                aq_model_replay(
                    size,
                    start(trace), trace.len(),
                    model.symbols.as_mut_ptr(), model.frequencies.as_mut_ptr(), model.total.as_mut_ptr(),
                )
            }
        }
    }
}

#[cfg(feature = "leaves")]
pub use leaves::{list, LinkedLeaves};

#[cfg(feature = "leaves")]
mod leaves {
    use super::{start, start_mut};
    use crate::leaf::Leaves;

    extern "C" {
        fn leaf_print(number: u32, buffer: *mut u8, len: usize, at: usize) -> u64;
        fn leaf_print_padded(
            number: u32,
            width: u32,
            buffer: *mut u8,
            len: usize,
            at: usize,
        ) -> u64;
        fn leaf_fits(number: u32, width: u32) -> u32;
        fn leaf_class(byte: u8) -> u32;
        fn leaf_byte(bytes: *const u8, len: usize, at: u32, end: u32) -> u64;
        fn leaf_four(bytes: *const u8, len: usize, at: u32, end: u32, next: *mut u32) -> u64;
        fn leaf_text(bytes: *const u8, len: usize, at: u32, end: u32) -> u64;
        fn leaf_judge(
            bytes: *const u8,
            len: usize,
            directory: *const u32,
            directory_len: usize,
            cursors: *const u32,
            cursors_len: usize,
        ) -> u32;
        fn leaf_list(input: *const u8, len: usize, out: *mut u8, out_len: usize) -> u64;
    }

    /// The linked listing of an input, at the front of a buffer.
    pub fn list(input: &[u8], out: &mut [u8]) -> u64 {
        // SAFETY: both pointers come from live slices of the length beside them, which don't overlap.
        unsafe { leaf_list(start(input), input.len(), start_mut(out), out.len()) }
    }

    /// The linked leaves. Every pointer below comes from a live slice of the length beside it,
    /// or from the one number that `leaf_four` may write, and none overlap.
    pub struct LinkedLeaves;

    impl Leaves for LinkedLeaves {
        fn print(&self, number: u32, buffer: &mut [u8], at: usize) -> u64 {
            // SAFETY: see `LinkedLeaves`.
            unsafe { leaf_print(number, start_mut(buffer), buffer.len(), at) }
        }

        fn print_padded(&self, number: u32, width: u32, buffer: &mut [u8], at: usize) -> u64 {
            // SAFETY: see `LinkedLeaves`.
            unsafe { leaf_print_padded(number, width, start_mut(buffer), buffer.len(), at) }
        }

        fn fits(&self, number: u32, width: u32) -> u32 {
            // SAFETY: no pointers.
            unsafe { leaf_fits(number, width) }
        }

        fn class(&self, byte: u8) -> u32 {
            // SAFETY: no pointers.
            unsafe { leaf_class(byte) }
        }

        fn byte(&self, bytes: &[u8], at: u32, end: u32) -> u64 {
            // SAFETY: see `LinkedLeaves`.
            unsafe { leaf_byte(start(bytes), bytes.len(), at, end) }
        }

        fn four(&self, bytes: &[u8], at: u32, end: u32, next: &mut [u32; 1]) -> u64 {
            // SAFETY: see `LinkedLeaves`.
            unsafe { leaf_four(start(bytes), bytes.len(), at, end, next.as_mut_ptr()) }
        }

        fn text(&self, bytes: &[u8], at: u32, end: u32) -> u64 {
            // SAFETY: see `LinkedLeaves`.
            unsafe { leaf_text(start(bytes), bytes.len(), at, end) }
        }

        fn judge(&self, bytes: &[u8], directory: &[u32], cursors: &[u32]) -> u32 {
            // SAFETY: see `LinkedLeaves`.
            unsafe {
                leaf_judge(
                    start(bytes),
                    bytes.len(),
                    start(directory),
                    directory.len(),
                    start(cursors),
                    cursors.len(),
                )
            }
        }
    }
}
