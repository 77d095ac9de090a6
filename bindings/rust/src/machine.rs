//! The automaton with bits and counters: one state that the bytes move, 64 bits and 16 counters
//! that no move looks at, and a program on each state.
//!
//! ```
//! use watch::machine::{Flow, Machine};
//! use watch::Pair;
//!
//! // Signature 9 at the third byte after each "<": state 1 sets counter 0 to 3, state 0 lowers it and
//! // alerts where it is 0.
//! let mut moves = vec![0; 2 * 512];
//! moves[2 * usize::from(b'<')] = 1;
//! moves[512 + 2 * usize::from(b'<')] = 1;
//! let mut programs = vec![0; 2 * 32];
//! programs[..8].copy_from_slice(&[5, 0, 0, 0, 8, 0, 9, 0]);
//! programs[32..36].copy_from_slice(&[3, 0, 3, 0]);
//! let machine = Machine::check(&moves, &programs)?;
//!
//! let mut words = [0; watch::ENOUGH_WORDS];
//! let mut flow = Flow::open(&machine, &mut words)?.flow;
//! let fed = flow.feed(&machine, 0, b"ab<cdefg", &mut words)?;
//! assert_eq!(fed.told(&words).collect::<Vec<Pair>>(), [Pair { signature: 9, offset: 6 }]);
//! assert_eq!((flow.state(), flow.counter(0)), (0, None)); // off again
//! # Ok::<(), watch::Refusal>(())
//! ```
//!
//! With `std` a `Builder` makes these lists of states, moves and instructions, and
//! `Certificate::explore` finds the certificate of a list.

#[cfg(feature = "std")]
mod builder;
mod certificate;
#[cfg(feature = "std")]
mod explore;

#[cfg(feature = "std")]
pub use builder::{BuildError, Builder, Instruction, MachineLists, State, MOST_INSTRUCTIONS};
pub use certificate::Certificate;
#[cfg(feature = "std")]
pub use explore::{Explored, NoCertificate};

use crate::call::call;
use crate::feed::sealed::Sealed;
use crate::{assert_version, Engine, Fed, FedAll, Pair, Record, Refusal, SplitError};
use crate::{ENOUGH_WORDS, X_COUNTERS, X_FLOW_SIZE, X_MOVES_SIZE, X_OFF};

/// An automaton with bits and counters that has passed its check.
///
/// Moves are, for each state, 256 targets of two bytes; programs, for each state, 8 records of 4
/// bytes: a kind, a bit or counter, and a number or signature of two bytes. `include/watch.h` has
/// the kinds.
#[derive(Clone, Copy, Debug, PartialEq, Eq)]
pub struct Machine<'a> {
    moves: &'a [u8],
    programs: &'a [u8],
}

impl<'a> Machine<'a> {
    /// Checks the two lists.
    ///
    /// # Errors
    ///
    /// [`Refusal::Machine`] (24).
    ///
    /// # Panics
    ///
    /// Where the linked archive has another version of the face than this crate is written for,
    /// [`VERSION`](crate::VERSION).
    ///
    /// ```
    /// use watch::{machine::Machine, Refusal};
    ///
    /// assert!(Machine::check(&[0; 512], &[0; 32]).is_ok());
    /// assert_eq!(Machine::check(&[0; 512], &[0; 64]), Err(Refusal::Machine));
    /// ```
    pub fn check(moves: &'a [u8], programs: &'a [u8]) -> Result<Machine<'a>, Refusal> {
        assert_version();
        Refusal::verdict(call!(watch_x_check(&moves, &programs)))?;
        Ok(Machine { moves, programs })
    }

    /// The moves.
    #[must_use]
    pub fn moves(&self) -> &'a [u8] {
        self.moves
    }

    /// The programs.
    #[must_use]
    pub fn programs(&self) -> &'a [u8] {
        self.programs
    }

    /// The number of states.
    #[must_use]
    pub fn states(&self) -> usize {
        self.moves.len() / X_MOVES_SIZE
    }
}

impl Sealed for Machine<'_> {}

impl Engine for Machine<'_> {
    type Flow = Flow;

    fn feed(
        &self,
        flow: &mut Flow,
        _split: &mut u32,
        start: u64,
        piece: &[u8],
        pairs: &mut [u32],
    ) -> Result<Fed, SplitError> {
        let Machine { moves, programs } = self;
        Fed::verdict(call!(watch_x_feed(&moves, &programs, &mut flow.bytes, start, &piece, &mut pairs)))
    }
}

/// A flow of such an automaton: its record of [`X_FLOW_SIZE`] bytes, which is all that has to be
/// kept between two pieces.
#[derive(Clone, Debug, PartialEq, Eq, Hash)]
pub struct Flow {
    pub(crate) bytes: [u8; X_FLOW_SIZE],
}

/// What an opening that was not refused did.
pub type Opened = crate::Opened<Flow>;

impl Sealed for Flow {}

impl Record for Flow {
    fn offset(&self) -> u32 {
        self.word(4)
    }
}

impl Flow {
    /// Opens a flow: the start state's program runs on clear bits and counters that are off, and
    /// what it alerts is told at offset 0.
    ///
    /// # Errors
    ///
    /// [`Refusal::NoRoom`] (15) where these pairs do not all fit: no word is written then.
    pub fn open(machine: &Machine<'_>, pairs: &mut [u32]) -> Result<Opened, Refusal> {
        let mut flow = Flow { bytes: [0; X_FLOW_SIZE] };
        let opened = call!(watch_x_open(&machine.moves, &machine.programs, &mut flow.bytes, &mut pairs));
        Refusal::verdict(opened.refusal)?;
        Ok(Opened { flow, pairs: opened.pairs as usize })
    }

    /// Opens a flow, and hands each pair of offset 0 to `told`, in order. The room for pairs is its
    /// own, so it is never refused.
    pub fn open_all(machine: &Machine<'_>, told: impl FnMut(Pair)) -> Flow {
        let mut words = [0; ENOUGH_WORDS];
        let opened = Flow::open(machine, &mut words).expect("it has passed, and there is room for every signature");
        opened.told(&words).for_each(told);
        opened.flow
    }

    /// Feeds a piece that begins at offset `start` of the flow. Room and pauses are as of
    /// [`watch::Flow::feed`](crate::Flow::feed).
    ///
    /// # Errors
    ///
    /// [`Refusal::FlowRecord`] (4), [`Refusal::OtherStart`] (5) and [`Refusal::TooLong`] (6), which
    /// change nothing.
    pub fn feed(&mut self, machine: &Machine<'_>, start: u64, piece: &[u8], pairs: &mut [u32]) -> Result<Fed, Refusal> {
        Engine::feed(machine, self, &mut 0, start, piece, pairs).map_err(|error| error.refusal())
    }

    /// Feeds a whole piece that begins at offset `start` of the flow; each pair is handed to
    /// `told`, in order, and after a pause the rest is fed from its middle.
    ///
    /// # Errors
    ///
    /// Those of [`feed`](Flow::feed). They come before the first byte: nothing is then consumed,
    /// changed or told.
    pub fn feed_all(
        &mut self,
        machine: &Machine<'_>,
        start: u64,
        piece: &[u8],
        told: impl FnMut(Pair),
    ) -> Result<FedAll, Refusal> {
        machine.feed_all(self, &mut 0, start, piece, told).map_err(|error| error.refusal())
    }

    /// The flow with a record that was saved.
    #[must_use]
    pub fn from_bytes(bytes: [u8; X_FLOW_SIZE]) -> Flow {
        Flow { bytes }
    }

    /// The record, to be saved.
    #[must_use]
    pub fn as_bytes(&self) -> &[u8; X_FLOW_SIZE] {
        &self.bytes
    }

    /// The record, to be saved.
    #[must_use]
    pub fn into_bytes(self) -> [u8; X_FLOW_SIZE] {
        self.bytes
    }

    /// The number of bytes consumed since the opening.
    #[must_use]
    pub fn offset(&self) -> u32 {
        Record::offset(self)
    }

    /// The state.
    #[must_use]
    pub fn state(&self) -> u16 {
        u16::from_le_bytes([self.bytes[0], self.bytes[1]])
    }

    /// The bits: bit 0 is worth 1.
    #[must_use]
    pub fn bits(&self) -> u64 {
        u64::from_le_bytes(self.bytes[8..16].try_into().expect("8 bytes"))
    }

    /// A counter: `None` where it is off.
    ///
    /// # Panics
    ///
    /// Where there is no counter of this number.
    #[must_use]
    pub fn counter(&self, counter: usize) -> Option<u32> {
        assert!(counter < X_COUNTERS, "counter {counter} of {X_COUNTERS}");
        Some(self.word(16 + 4 * counter)).filter(|count| *count != X_OFF)
    }

    fn word(&self, at: usize) -> u32 {
        u32::from_le_bytes(self.bytes[at..at + 4].try_into().expect("4 bytes"))
    }
}

impl AsRef<[u8]> for Flow {
    fn as_ref(&self) -> &[u8] {
        &self.bytes
    }
}
