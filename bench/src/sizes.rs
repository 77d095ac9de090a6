//! The sizes of the face, as the Rust crate has them, and what the ordinary versions make of them.

#[allow(dead_code)]
#[path = "../../bindings/rust/src/sizes.rs"]
mod face;

pub use face::*;

/// A set of states as words of 64 bits.
pub const SET_WORDS: usize = STATES / 64;
/// A set of signatures as words of 64 bits.
pub const SIGNATURE_WORDS: usize = SIGNATURES / 64;
/// The most classes.
pub const CLASSES: usize = MOST_CLASS as usize + 1;

/// The entry of a split in an index: a word of 4 bytes for each byte, a set of signatures, and as many bytes for a note, whose first byte is a
/// byte's rows and whose second is 0 where a state of the split is not named.
pub const TOLD_AT: usize = 4 * BYTE_VALUES;
pub const NOTE_AT: usize = TOLD_AT + SIGNATURES / 8;
/// What a word has more where the entry that it leads to tells.
pub const TELLING: usize = face::TELLING as usize;
