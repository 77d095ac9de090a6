//! A signature matcher whose code is proved: for every list, table, saved record and piece of bytes
//! it does what its rules say.
//!
//! A [`List`] of signatures is an automaton. A [`Flow`] of bytes is fed to it in pieces, and each
//! time that a signature ends there is a [`Pair`]: the signature's number and the offset at which
//! it ends. A flow is [`FLOW_SIZE`] bytes, so it can be saved between any two pieces.
//!
//! ```
//! use watch::{Flow, List, Pair};
//!
//! // Signature 7 after any "ab".
//! let bytes = [
//!     1, 0x00, 0xFF, 0, 0, 0, 0, 0, // edge: on any byte, from state 0 to state 0
//!     1, b'a', b'a', 0, 0, 0, 1, 0, // edge: on 'a', from state 0 to state 1
//!     1, b'b', b'b', 0, 1, 0, 2, 0, // edge: on 'b', from state 1 to state 2
//!     2, 0, 0, 0, 0, 0, 0, 0, //       start: state 0
//!     3, 0, 0, 0, 2, 0, 7, 0, //       accept: state 2 tells signature 7
//! ];
//! let list = List::check(&bytes)?;
//! let mut words = [0; watch::ENOUGH_WORDS];
//!
//! let opened = Flow::open(&list, &mut words)?;
//! assert_eq!(opened.pairs, 0); // no start state accepts, so nothing is told before the first byte
//! let mut flow = opened.flow;
//! let fed = flow.feed(&list, 0, b"abab", &mut words)?;
//! assert!(fed.all);
//! let told: Vec<Pair> = fed.told(&words).collect();
//! assert_eq!(told, [Pair { signature: 7, offset: 2 }, Pair { signature: 7, offset: 4 }]);
//! # Ok::<(), watch::Refusal>(())
//! ```
//!
//! # Room and pauses
//!
//! Pairs go into a lent buffer of words, two a pair. A feed consumes the longest front of the piece
//! whose pairs all fit; where that is not the whole piece, it has paused, and the rest is fed from
//! its middle. A pause that goes unseen is a match missed, so what a feed answers has to be used:
//!
//! ```
//! # use watch::{Flow, List, Refusal};
//! fn watch_all(list: &List, flow: &mut Flow, piece: &[u8], mut alarm: impl FnMut(watch::Pair)) -> Result<(), Refusal> {
//!     let mut words = [0; watch::ENOUGH_WORDS];
//!     let mut rest = piece;
//!     loop {
//!         let start = u64::from(flow.offset());
//!         let fed = flow.feed(list, start, rest, &mut words)?;
//!         fed.told(&words).for_each(&mut alarm);
//!         rest = &rest[fed.bytes..];
//!         if fed.all {
//!             return Ok(());
//!         }
//!     }
//! }
//! # let bytes = *b"\x01\x00\xFF\0\0\0\0\0\x02\0\0\0\0\0\0\0\x03\0\0\0\0\0\x09\0";
//! # let list = List::check(&bytes).unwrap();
//! # let mut flow = Flow::open_all(&list, |_| ());
//! # let mut told = 0;
//! # watch_all(&list, &mut flow, &[0; 1000], |_| told += 1).unwrap();
//! # assert_eq!(told, 1000);
//! ```
//!
//! With [`ENOUGH_WORDS`] words a feed of a non-empty piece that is not refused consumes at least
//! one byte, so such a loop ends. [`Flow::feed_all`] is such a loop, and with `std` `FlowReader` is
//! one over anything that can be read.
//!
//! A start state that accepts is told when the flow is opened, at offset 0. [`Flow::open`] tells
//! all of these pairs or, where they do not fit, refuses; with [`ENOUGH_WORDS`] words they always
//! do, and [`Flow::open_all`] brings its own.
//!
//! # Engines
//!
//! What feeds a flow is an [`Engine`]. All tell the same pairs; they differ in time and memory.
//!
//! - The [`List`] itself: a byte costs work for each record.
//! - A [`Table`] is an automaton worked out beforehand, with at most [`MOST_BOUND`] rows read a
//!   byte. One that passes [`Table::check`] tells the same pairs as the plain feed. `Table::build`
//!   makes one of a list, with one row read a byte, and [`Table::build_in`] does so in lists that
//!   the caller lends; what they make passes.
//! - An [`Index`] is that table worked out once more: where each byte leads from each split, and
//!   what is told there. [`Flow::prepared_feed`] runs it, one look a byte, and tells and saves what
//!   [`Flow::split_feed`] does with the table. [`Index::prepare_in`], and with `std`
//!   `Index::prepare`, make one straight from a list, without a table.
//! - A [`Matrix`] has a set for each state and byte, which [`Matrix::fill`] writes from a list into
//!   a buffer of [`List::matrix_size`] bytes. Fed by it, a flow is in every way as fed by its list:
//!   pairs, record and rows read. It costs [`ROW_SIZE`] bytes a state, and a byte then costs work
//!   for each state of the frontier and not for each record of the list.
//! - [`machine`] is another kind of automaton, with bits and counters, for signatures whose lists
//!   would be huge, such as "a line longer than 300 after this word". With `std` its `Builder`
//!   makes one of states, moves and instructions. A [`Certificate`](machine::Certificate) that
//!   passes says that one of them tells just the pairs of a list, and with `std`
//!   `Certificate::explore` finds it.
//!
//! # Resends
//!
//! A sender that resends after a timeout, in pieces that overlap, numbers its bytes. [`Segments`]
//! puts its segments in order by these numbers, holds one that comes too early, and drops what came
//! before: each pair is told once, however often and however cut the bytes are sent.
//!
//! # Signature texts
//!
//! [`List::compile_in`], and with `std` `List::compile`, make the list of a signature that is
//! written as text:
//!
//! | text | matches |
//! |---|---|
//! | a byte other than `\ . [ ] ( ) \| * + ? { } ^` | itself |
//! | `\xHH`, `\n`, `\s`, `.` | the byte HH in hex; a line feed; a space or a byte 9 to 13; any byte |
//! | `[ab\x00-\x1F\s]`, `[^a-c]` | one byte that is a member; that is none. A byte other than `\ [ ] ^ -` is a member itself, as are escapes and ranges |
//! | `xy`, `x\|y`, `(x)` | one after the other; either, each may be empty; the same, at most 16 deep |
//! | `x*`, `x+`, `x?`, `x{m,n}` | any number of times; once or more; once or not; m to n times, m ≤ n ≤ 300. One such mark for a byte, class or bracket |
//! | `^x` | x from offset 0 on, where `^` is the very first byte; else a match may begin anywhere |
//!
//! All ends of all matches are told. [`List::join_in`] joins two lists, [`List::fold_in`] makes
//! states with the same past one, and with `std` `List::compile_all` makes one list of many texts;
//! `tools/signatures` in the repository does so with a file of them.
//!
//! # Order of arguments
//!
//! What is run comes first, then the flow, then where the bytes begin, then the bytes, and what is
//! written or called last.
//!
//! # Linking
//!
//! The code itself is the archive `libwatch_c.a`, for x86-64 and the System V calling convention.
//! `tools/build-c` in the repository makes it. The build script links the archive in the folder
//! that `WATCH_LIB_DIR` names, or, where that is not set, `target/staticlib/libwatch_c.a` in the
//! repository that this crate stands in. It has no other dependency. Where there is no archive, or
//! the target is another one, `cargo check` and `cargo doc` still work, with a warning; a program
//! does not link.
//!
//! The archive says which version of the face it has, and [`List::check`], [`List::compile_in`] and
//! [`machine::Machine::check`] compare it with [`VERSION`]: everything else begins with one of
//! them, so nothing runs over an archive that this crate is not written for.
//!
//! This wrapper is not proved. All that is unsafe in it is one macro, which calls the archive:
//! slices, borrowed over the call, are handed on as pointers and lengths.
//!
//! # Features
//!
//! `std`, which is on unless default features are turned off, makes the errors errors of the
//! standard library, and has `FlowReader`, `Table::build`, `Index::prepare`, `List::compile`,
//! `List::compile_all`, `List::join`, `List::fold`, `List::why_all`, `machine::Builder` and
//! `machine::Certificate::explore`, which alone allocate memory. Without it the crate needs nothing
//! but `core`. It builds with Rust 1.63 and later.

#![no_std]
#![deny(missing_docs, unsafe_code)]

#[cfg(feature = "std")]
extern crate std;

mod call;
mod feed;
mod flow;
mod index;
mod list;
pub mod machine;
mod matrix;
pub mod raw;
#[cfg(feature = "std")]
mod read;
mod refusal;
mod segment;
mod sizes;
mod table;
mod text;
mod why;

pub use feed::{pairs_in, Engine, Fed, FedAll, Pair, Record, SplitError};
pub use flow::{Flow, Opened};
pub use index::Index;
pub use list::List;
pub use matrix::Matrix;
pub use refusal::Refusal;
pub use segment::{Held, SegmentEngine, SegmentError, Segments};
pub use sizes::*;
pub use table::{LentLists, Table, TableLists};
pub use text::CompileError;
pub use why::Question;

#[cfg(feature = "std")]
pub use {
    index::Prepared,
    read::{FlowReader, ReadError},
    table::Built,
    text::{CollectError, Compiled},
};

/// The version of the face that the linked archive has.
#[must_use]
pub fn archive_version() -> u32 {
    call::call!(watch_version())
}

/// Panics where the archive is for another version of this crate.
fn assert_version() {
    let archive = archive_version();
    assert!(archive == VERSION, "libwatch_c.a has version {archive} of the face, and the crate watch is for {VERSION}");
}

/// Lists and engines may be shared between threads, and flows handed from one to another.
const _: () = {
    const fn send_and_sync<T: Send + Sync + Unpin + 'static>() {}
    send_and_sync::<List<'static>>();
    send_and_sync::<(Table<'static>, TableLists<'static>, LentLists<'static>)>();
    send_and_sync::<(Matrix<'static, &[u8]>, Index<'static, &[u8]>)>();
    send_and_sync::<(machine::Machine<'static>, machine::Certificate<'static>, machine::Flow)>();
    send_and_sync::<(Flow, Opened, Fed, FedAll, Pair, Segments)>();
    send_and_sync::<(Refusal, SplitError, SegmentError, CompileError)>();
    send_and_sync::<(raw::WatchFed, raw::WatchOpened, raw::WatchBuilt, raw::WatchStood, raw::WatchMade)>();
    #[cfg(feature = "std")]
    send_and_sync::<(Built<'static>, Prepared, Compiled, CollectError, ReadError)>();
};

/// The examples of the crate's own page.
#[cfg(doctest)]
#[doc = include_str!("../README.md")]
struct Readme;
