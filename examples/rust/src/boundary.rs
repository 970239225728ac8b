//! The C functions of the header behind slices and arrays. The only unsafe code of the package.
//!
//! Why each call below is sound. The header asks the caller for four things:
//! - sizes: every pointer comes from a slice, with that slice's length beside it, or from an
//!   array of the length that the header names;
//! - alignment: a slice or an array of `u32` is aligned for `u32`;
//! - overlap: what a call may write comes in as `&mut`, which nothing else of the call can share;
//! - lifetime: no function keeps a pointer, so the borrows may end with the call.
//!
//! A Rust slice of length 0 has a dangling pointer that isn't null; the functions look at no
//! element of a slice of length 0, so it needs no exception.

#![allow(unsafe_code)]

use crate::{Block, Kept, Model};

// Line by line as the header has them.
#[rustfmt::skip]
mod header {
    extern "C" {
        pub fn aq_open(
            bytes: *const u8, bytes_len: usize, directory: *const u32, directory_len: usize,
            count: u32, cursors: *mut u32, cursors_len: usize, state: *mut u32,
        ) -> u64;
        pub fn aq_read(
            bytes: *const u8, bytes_len: usize, directory: *const u32, directory_len: usize,
            cursors: *mut u32, cursors_len: usize, text: *mut u8, text_len: usize,
            names: *mut u32, names_len: usize, rows: *mut u32, rows_len: usize, state: *mut u32,
        ) -> u64;
        pub fn aq_read_block(
            bytes: *const u8, bytes_len: usize, directory: *const u32, directory_len: usize,
            count: u32, cursors: *mut u32, cursors_len: usize, text: *mut u8, text_len: usize,
            names: *mut u32, names_len: usize, rows: *mut u32, rows_len: usize, state: *mut u32,
        ) -> u64;
        pub fn aq_claim(
            number: u32, claim: *const u8, claim_len: usize,
            text: *const u8, text_len: usize, names: *const u32, names_len: usize,
            state: *const u32,
        ) -> u64;
        pub fn aq_write(
            input: *const u8, input_len: usize, directory: *mut u32, directory_len: usize,
            bytes: *mut u8, bytes_len: usize, totals: *mut u32,
        ) -> u64;
        pub fn aq_model_replay(
            size: u32, trace: *const u8, trace_len: usize,
            symbols: *mut u32, frequencies: *mut u32, total: *mut u32,
        ) -> u64;
    }
}

/// Calls a function of the header with its arguments in order. Of each slice, read (`in`) or
/// written (`mut`), it hands over the pointer and the length.
macro_rules! call {
    (
        $function:ident, $($first:expr,)? in [$($read:expr),*],
        $($number:expr,)? mut [$($written:expr),*], $array:expr
    ) => {
        // SAFETY: see the top of the file.
        unsafe {
            header::$function(
                $($first,)?
                $($read.as_ptr(), $read.len(),)*
                $($number,)?
                $($written.as_mut_ptr(), $written.len(),)*
                $array,
            )
        }
    };
}

pub fn open(block: &Block, kept: &mut Kept) -> u64 {
    let state = kept.state.as_mut_ptr();
    call!(aq_open, in [block.bytes, block.directory], block.count, mut [kept.cursors], state)
}

pub fn read(block: &Block, kept: &mut Kept) -> u64 {
    let state = kept.state.as_mut_ptr();
    call!(
        aq_read, in [block.bytes, block.directory],
        mut [kept.cursors, kept.text, kept.names, kept.rows], state
    )
}

pub fn read_block(block: &Block, kept: &mut Kept) -> u64 {
    let state = kept.state.as_mut_ptr();
    call!(
        aq_read_block, in [block.bytes, block.directory], block.count,
        mut [kept.cursors, kept.text, kept.names, kept.rows], state
    )
}

pub fn claim(number: u32, claimed: &[u8], kept: &Kept) -> u64 {
    let state = kept.state.as_ptr();
    call!(aq_claim, number, in [claimed, kept.text, kept.names], mut [], state)
}

pub fn write(input: &[u8], directory: &mut [u32], bytes: &mut [u8], totals: &mut [u32; 2]) -> u64 {
    call!(aq_write, in [input], mut [directory, bytes], totals.as_mut_ptr())
}

pub fn model_replay(size: u32, trace: &[u8], model: &mut Model) -> u64 {
    let symbols = model.symbols.as_mut_ptr();
    let frequencies = model.frequencies.as_mut_ptr();
    // SAFETY: see the top of the file; the total is one number.
    unsafe {
        header::aq_model_replay(
            size,
            trace.as_ptr(),
            trace.len(),
            symbols,
            frequencies,
            &mut model.total,
        )
    }
}
