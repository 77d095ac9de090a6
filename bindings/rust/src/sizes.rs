//! The sizes and limits of the formats, under the names that `include/watch.h` gives them after
//! `WATCH_`. What follows from another one is written so. tools/face writes this file, and holds
//! the numbers to the constants of the proved code.

/// The version of the face.
pub const VERSION: u32 = 20;

/// States are the numbers below this one.
pub const STATES: usize = 1024;

/// Signatures are the numbers below this one.
pub const SIGNATURES: usize = 256;

/// Bytes in a set of states: a bit for each.
pub const SET_SIZE: usize = STATES / 8;

/// Bytes in a record of a list.
pub const RECORD_SIZE: usize = 8;

/// The most records that a list may have.
pub const MOST_RECORDS: usize = 8192;

/// Bytes of a list of the most records.
pub const MOST_LIST: usize = MOST_RECORDS * RECORD_SIZE;

/// The place of the offset in a flow record, which begins with a set: 4 bytes.
pub const OFFSET_AT: usize = SET_SIZE;

/// The place of the reserved bytes in a flow record: 4 zeros.
pub const RESERVED_AT: usize = OFFSET_AT + 4;

/// The place of the rows read in a flow record: 8 bytes.
pub const ROWS_AT: usize = RESERVED_AT + 4;

/// Bytes in a flow record.
pub const FLOW_SIZE: usize = ROWS_AT + 8;

/// The largest offset.
pub const MOST_OFFSET: u64 = 4_294_967_295;

/// Words with which a feed never stands still, and an opening is never refused with 15: room for a
/// pair of each signature.
pub const ENOUGH_WORDS: usize = 2 * SIGNATURES;

/// Bytes that a piece may have; each has a class.
pub const BYTE_VALUES: usize = 256;

/// The largest class.
pub const MOST_CLASS: u8 = 63;

/// The most parts of a table.
pub const MOST_PARTS: usize = 1024;

/// The most splits of a table.
pub const MOST_SPLITS: usize = 4096;

/// The largest bound.
pub const MOST_BOUND: u64 = 4;

/// Slots in a split.
pub const SLOTS: usize = 4;

/// The number in a slot that is not in use.
pub const UNUSED: u16 = 65_535;

/// Bytes in a split: its set, then its slots of two bytes.
pub const SPLIT_SIZE: usize = SET_SIZE + 2 * SLOTS;

/// Bytes of a matrix for one state: a set for each byte.
pub const ROW_SIZE: usize = BYTE_VALUES * SET_SIZE;

/// Bytes of a matrix for all states.
pub const MOST_MATRIX: usize = STATES * ROW_SIZE;

/// Bytes in the entry of a split in an index.
pub const ENTRY_SIZE: usize = 1088;

/// Bytes in the index of the most splits: a set of states, then an entry for each.
pub const MOST_INDEX: usize = SET_SIZE + ENTRY_SIZE * MOST_SPLITS;

/// What a word of an index has more where the entry that it leads to tells.
pub const TELLING: u32 = 2_147_483_648;

/// The bytes that the classes of a table that is built need.
pub const LENT_CLASSES: usize = BYTE_VALUES;

/// The bytes that its parts need.
pub const LENT_PARTS: usize = SET_SIZE * MOST_PARTS;

/// The bytes that its rows need.
pub const LENT_ROWS: usize = SET_SIZE * MOST_PARTS * (MOST_CLASS as usize + 1);

/// The bytes that its splits need.
pub const LENT_SPLITS: usize = SPLIT_SIZE * MOST_PARTS;

/// The bytes that splits prepared straight from a list need.
pub const PREPARE_SPLITS: usize = SPLIT_SIZE * MOST_SPLITS;

/// The bytes that their index needs.
pub const PREPARE_INDEX: usize = MOST_INDEX;

/// The most states of an automaton with bits and counters.
pub const X_STATES: usize = 1024;

/// Bytes of a state's moves: a target of two bytes for each byte.
pub const X_MOVES_SIZE: usize = 512;

/// Bytes of a state's program: 8 records of 4 bytes.
pub const X_PROGRAM_SIZE: usize = 32;

/// Bits are the numbers below this one.
pub const X_BITS: usize = 64;

/// Counters are the numbers below this one.
pub const X_COUNTERS: usize = 16;

/// How a counter that is off is written in a flow record.
pub const X_OFF: u32 = 65_536;

/// Bytes in a flow record of an automaton with bits and counters.
pub const X_FLOW_SIZE: usize = 80;

/// The most bytes of a segment.
pub const MOST_SEGMENT: usize = 65_535;

/// Bytes of the held buffer.
pub const HELD_SIZE: usize = 4096;

/// Bytes in a record of a certificate: a flow record of an automaton with bits and counters without
/// its offset, then a set of list states.
pub const NOTE_SIZE: usize = X_FLOW_SIZE - 4 + SET_SIZE;

/// The most records of a certificate.
pub const MOST_NOTES: usize = 4096;

/// The most brackets of a signature text inside one another.
pub const MOST_DEPTH: usize = 16;

/// The largest number of a repeat in a signature text.
pub const MOST_REPEAT: usize = 300;
