//! The second program: document 01 with requests C-11, C-14 and C-22 of document 02, written again
//! in Rust from the papers alone. It opens and reads blocks, answers claims, writes names, lists
//! them and replays a model's table, with all refusals and all lent memory. `calls` holds these calls
//! as one trait, `compare` runs two holders of it over the same memory, `cases` makes what they are
//! run over, `round` hands on what they wrote as users do; the features `linked` and `leaves` put a C
//! library on the other side.

#![deny(unsafe_code)]

#[cfg(any(feature = "linked", feature = "leaves"))]
pub mod boundary;
pub mod calls;
pub mod cases;
pub mod claim;
pub mod class;
pub mod compare;
pub mod digits;
pub mod directory;
pub mod distance;
pub mod kept;
pub mod leaf;
pub mod lent;
pub mod listing;
pub mod memory;
pub mod model;
pub mod name;
pub mod reading;
pub mod refusal;
pub mod round;
pub mod row;
pub mod span;
pub mod split;
pub mod token;
pub mod writing;
