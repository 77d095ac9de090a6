//! What every feed has alike: engines, pairs, what a feed did, and the loop over a whole piece.

use crate::{raw, Refusal, ENOUGH_WORDS};
use core::fmt;

pub(crate) mod sealed {
    /// What only this crate can be.
    pub trait Sealed {}
}

/// What a flow is fed by: a [`List`](crate::List), a [`Table`](crate::Table), a
/// [`Matrix`](crate::Matrix), an [`Index`](crate::Index), or an automaton with bits and counters,
/// [`Machine`](crate::machine::Machine).
///
/// Code that works with any of them takes one of these. The feeds of [`Flow`](crate::Flow) are the
/// same under their own names.
///
/// ```
/// use watch::{Engine, Flow, List, Matrix, Pair, SplitError};
///
/// /// The pairs of a piece, by any engine.
/// fn pairs<E: Engine>(engine: &E, flow: &mut E::Flow, piece: &[u8]) -> Result<Vec<Pair>, SplitError> {
///     let mut told = Vec::new();
///     engine.feed_all(flow, &mut 0, 0, piece, |pair| told.push(pair))?;
///     Ok(told)
/// }
///
/// # let bytes = *b"\x01\x00\xFF\0\0\0\0\0\x01aa\0\0\0\x01\0\x01bb\0\x01\0\x02\0\x02\0\0\0\0\0\0\0\x03\0\0\0\x02\0\x07\0";
/// let list = List::check(&bytes)?; // signature 7 after any "ab"
/// let matrix = Matrix::fill(&list, vec![0; list.matrix_size()])?;
/// let opened = Flow::open_all(&list, |_| ());
/// let told = [Pair { signature: 7, offset: 2 }, Pair { signature: 7, offset: 4 }];
/// assert_eq!(pairs(&list, &mut opened.clone(), b"abab")?, told);
/// assert_eq!(pairs(&matrix, &mut opened.clone(), b"abab")?, told);
/// # Ok::<(), SplitError>(())
/// ```
pub trait Engine: sealed::Sealed {
    /// The flow that it feeds.
    type Flow: Record;

    /// Feeds a piece that begins at offset `start` of the flow.
    ///
    /// The pairs of the bytes consumed are in the first `2 * pairs` words; later words stay as they
    /// are, an odd last word always. `split` is the hint of
    /// [`prepared_feed`](crate::Flow::prepared_feed): the other engines leave it.
    ///
    /// # Errors
    ///
    /// Those of the engine's own feed.
    fn feed(
        &self,
        flow: &mut Self::Flow,
        split: &mut u32,
        start: u64,
        piece: &[u8],
        pairs: &mut [u32],
    ) -> Result<Fed, SplitError>;

    /// Feeds a whole piece that begins at offset `start` of the flow, from its middle after each
    /// pause, and hands each pair to `told`, in order. The room for pairs is its own,
    /// [`ENOUGH_WORDS`] words of the stack.
    ///
    /// # Errors
    ///
    /// Those of [`feed`](Engine::feed). The pairs before [`SplitError::Halted`] and
    /// [`SplitError::Foreign`] have been handed on, and their bytes and pairs are counted from the
    /// piece's front.
    fn feed_all(
        &self,
        flow: &mut Self::Flow,
        split: &mut u32,
        start: u64,
        piece: &[u8],
        mut told: impl FnMut(Pair),
    ) -> Result<FedAll, SplitError>
    where
        Self: Sized,
    {
        let mut words = [0; ENOUGH_WORDS];
        let (mut bytes, mut pairs) = (0, 0);
        loop {
            let fed = self.feed(flow, split, start + bytes as u64, &piece[bytes..], &mut words);
            let (more_bytes, more_pairs) = counted(&fed);
            pairs_in(&words[..2 * more_pairs]).for_each(&mut told);
            bytes += more_bytes;
            pairs += more_pairs;
            match fed {
                Ok(fed) if fed.all => return Ok(FedAll { bytes, pairs }),
                Ok(_) => (),
                Err(SplitError::Halted { .. }) => return Err(SplitError::Halted { bytes, pairs }),
                Err(_) if bytes > 0 => return Err(SplitError::Foreign { bytes, pairs }),
                Err(refused) => return Err(refused),
            }
        }
    }
}

/// A flow's record: [`Flow`](crate::Flow), or [`machine::Flow`](crate::machine::Flow).
pub trait Record: sealed::Sealed {
    /// The number of bytes consumed since the opening.
    fn offset(&self) -> u32;
}

/// The bytes that a feed consumed, and the pairs that it wrote.
pub(crate) fn counted(fed: &Result<Fed, SplitError>) -> (usize, usize) {
    match fed {
        Ok(fed) => (fed.bytes, fed.pairs),
        Err(error) => (error.bytes(), error.pairs()),
    }
}

/// What a feed that was not refused did.
///
/// One that paused has left the rest of the piece unread, so to drop this answer is to miss
/// matches, and the compiler warns:
///
/// ```compile_fail
/// #![deny(unused_must_use)]
/// # use watch::{Flow, List, Refusal};
/// fn watch(list: &List, flow: &mut Flow, piece: &[u8], words: &mut [u32]) -> Result<(), Refusal> {
///     flow.feed(list, 0, piece, words)?; // did it consume the whole piece?
///     Ok(())
/// }
/// ```
#[derive(Clone, Copy, Debug, PartialEq, Eq, Hash)]
#[must_use = "a feed may pause before the end of the piece, and the rest then has to be fed"]
#[non_exhaustive]
pub struct Fed {
    /// Bytes consumed, from the front of the piece.
    pub bytes: usize,
    /// Pairs written, two words each.
    pub pairs: usize,
    /// Whether the whole piece was consumed. Where not, the feed paused for want of room.
    pub all: bool,
}

impl Fed {
    /// What a feed did, of the archive's answer.
    pub(crate) fn verdict(fed: raw::WatchFed) -> Result<Fed, SplitError> {
        let (bytes, pairs) = (fed.bytes as usize, fed.pairs as usize);
        match Refusal::verdict(fed.refusal) {
            Ok(()) => Ok(Fed { bytes, pairs, all: fed.all }),
            Err(Refusal::NoSplit) => Err(SplitError::Halted { bytes, pairs }),
            Err(refusal) => Err(SplitError::Refused(refusal)),
        }
    }

    /// The pairs told, read from the buffer that the feed wrote.
    ///
    /// # Panics
    ///
    /// Where the buffer is shorter than what the feed wrote: it is another one.
    pub fn told<'w>(&self, words: &'w [u32]) -> impl Iterator<Item = Pair> + 'w {
        pairs_in(&words[..2 * self.pairs])
    }
}

/// What a feed of a whole piece, with as many pauses as it took, did.
#[derive(Clone, Copy, Debug, PartialEq, Eq, Hash)]
#[non_exhaustive]
pub struct FedAll {
    /// Bytes consumed: those of the whole piece.
    pub bytes: usize,
    /// Pairs handed to the callback.
    pub pairs: usize,
}

/// A signature that ended in a flow.
#[derive(Clone, Copy, Debug, PartialEq, Eq, PartialOrd, Ord, Hash)]
pub struct Pair {
    /// The signature's number.
    pub signature: u32,
    /// The number of bytes of the flow up to its end.
    pub offset: u32,
}

impl fmt::Display for Pair {
    /// The line that the program writes: signature, a space, offset.
    fn fmt(&self, f: &mut fmt::Formatter<'_>) -> fmt::Result {
        write!(f, "{} {}", self.signature, self.offset)
    }
}

/// The pairs that words hold, two a pair; an odd last word is passed over.
///
/// ```
/// use watch::{pairs_in, Pair};
///
/// let told: Vec<Pair> = pairs_in(&[7, 2, 7]).collect();
/// assert_eq!(told, [Pair { signature: 7, offset: 2 }]);
/// ```
pub fn pairs_in(words: &[u32]) -> impl Iterator<Item = Pair> + '_ {
    words.chunks_exact(2).map(|pair| Pair { signature: pair[0], offset: pair[1] })
}

/// Why a feed by splits, of a table or an index, did not end well.
///
/// A feed that is [`Refused`](SplitError::Refused) changed nothing. One that
/// [`Halted`](SplitError::Halted) has consumed the bytes before the byte at which refusal 14 was
/// found: the flow stands there, and the pairs up to there are in the buffer. So the pairs of a
/// halted feed are not to be thrown away:
///
/// ```
/// use watch::{pairs_in, Pair, SplitError, Flow, Table};
///
/// /// Feeds a piece and hands on every pair that it tells, also those before a refusal.
/// fn told(flow: &mut Flow, table: &Table, piece: &[u8], words: &mut [u32]) -> (Vec<Pair>, Option<SplitError>) {
///     let start = u64::from(flow.offset());
///     match flow.split_feed(table, start, piece, words) {
///         Ok(fed) => (fed.told(words).collect(), None),
///         Err(error) => (pairs_in(&words[..2 * error.pairs()]).collect(), Some(error)),
///     }
/// }
/// ```
#[derive(Clone, Copy, Debug, PartialEq, Eq, Hash)]
#[non_exhaustive]
pub enum SplitError {
    /// A refusal before the first byte. No buffer has changed.
    Refused(Refusal),
    /// Refusal 14, at the byte after those consumed.
    #[non_exhaustive]
    Halted {
        /// Bytes consumed before that byte.
        bytes: usize,
        /// Pairs written for them.
        pairs: usize,
    },
    /// Refusal 4 after a pause: a table that has not passed the check has led to a state that no
    /// record of the list names, and [`split_feed_all`](crate::Flow::split_feed_all) can't go on
    /// from there.
    #[non_exhaustive]
    Foreign {
        /// Bytes consumed up to the pause.
        bytes: usize,
        /// Pairs handed on for them.
        pairs: usize,
    },
}

impl SplitError {
    /// The refusal: the one that it carries, or [`Refusal::NoSplit`] (14) where the feed halted.
    #[must_use]
    pub fn refusal(&self) -> Refusal {
        match self {
            SplitError::Refused(refusal) => *refusal,
            SplitError::Halted { .. } => Refusal::NoSplit,
            SplitError::Foreign { .. } => Refusal::FlowRecord,
        }
    }

    /// Bytes consumed before the refusal: 0 where the feed was [`Refused`](SplitError::Refused).
    #[must_use]
    pub fn bytes(&self) -> usize {
        match self {
            SplitError::Refused(_) => 0,
            SplitError::Halted { bytes, .. } | SplitError::Foreign { bytes, .. } => *bytes,
        }
    }

    /// Pairs written before the refusal: 0 where the feed was [`Refused`](SplitError::Refused).
    #[must_use]
    pub fn pairs(&self) -> usize {
        match self {
            SplitError::Refused(_) => 0,
            SplitError::Halted { pairs, .. } | SplitError::Foreign { pairs, .. } => *pairs,
        }
    }
}

impl fmt::Display for SplitError {
    fn fmt(&self, f: &mut fmt::Formatter<'_>) -> fmt::Result {
        self.refusal().fmt(f)?;
        match self {
            SplitError::Refused(_) => Ok(()),
            SplitError::Halted { bytes, pairs } | SplitError::Foreign { bytes, pairs } => {
                write!(f, " (after {bytes} bytes and {pairs} pairs)")
            }
        }
    }
}

#[cfg(feature = "std")]
impl std::error::Error for SplitError {}

impl From<Refusal> for SplitError {
    /// A refusal that consumed nothing.
    fn from(refusal: Refusal) -> SplitError {
        match refusal {
            Refusal::NoSplit => SplitError::Halted { bytes: 0, pairs: 0 },
            _ => SplitError::Refused(refusal),
        }
    }
}
