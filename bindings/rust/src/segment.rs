//! Segments by sequence number, put in order before they are fed.

use crate::call::call;
use crate::machine::{self, Machine};
use crate::table::call_table;
use crate::{pairs_in, raw, Engine, Flow, Index, List, Pair, Record, Refusal, Table, ENOUGH_WORDS, HELD_SIZE};
use core::fmt;

/// The held place: the number of the first byte held, and how many bytes are held. Save it behind
/// the held buffer.
#[derive(Clone, Copy, Debug, PartialEq, Eq, Hash, Default)]
pub struct Held {
    /// The number of the first byte held.
    pub start: u32,
    /// How many bytes are held, at most [`HELD_SIZE`].
    pub length: u32,
}

/// A segment, with the number of the flow's first byte and what is held.
#[doc(hidden)]
#[derive(Debug)]
pub struct Look<'a> {
    first: u32,
    buffer: &'a mut [u8; HELD_SIZE],
    held: Held,
    start: u32,
    segment: &'a [u8],
}

/// An engine that feeds segments: a [`List`], a [`Table`], an [`Index`] or a [`Machine`].
pub trait SegmentEngine: Engine {
    /// One call of the archive, with room for some pairs.
    #[doc(hidden)]
    fn hear(&self, flow: &mut Self::Flow, split: &mut u32, look: Look<'_>, pairs: &mut [u32]) -> raw::WatchHeard;
}

/// Calls a function of the archive that feeds a segment: it takes what its engine does, then the
/// flow, the look and the pairs.
macro_rules! hear {
    ($call:ident!($name:ident($($engine:tt)*)), $flow:expr, $look:expr, $pairs:expr) => {
        $call!($name(
            $($engine)*, &mut $flow.bytes, $look.first, &mut $look.buffer, $look.held.start, $look.held.length,
            $look.start, &$look.segment, &mut $pairs
        ))
    };
}

impl SegmentEngine for List<'_> {
    fn hear(&self, flow: &mut Flow, _split: &mut u32, look: Look<'_>, pairs: &mut [u32]) -> raw::WatchHeard {
        hear!(call!(watch_feed_segment(&self.bytes)), flow, look, pairs)
    }
}

impl SegmentEngine for Table<'_> {
    fn hear(&self, flow: &mut Flow, _split: &mut u32, look: Look<'_>, pairs: &mut [u32]) -> raw::WatchHeard {
        hear!(call_table!(watch_split_feed_segment(self)), flow, look, pairs)
    }
}

impl<B: AsRef<[u8]>> SegmentEngine for Index<'_, B> {
    fn hear(&self, flow: &mut Flow, split: &mut u32, look: Look<'_>, pairs: &mut [u32]) -> raw::WatchHeard {
        let index = self.bytes.as_ref();
        let raw::WatchHeardAt { bytes, pairs, refusal, held_start, held_length, all, split: stands } =
            hear!(call!(watch_prepared_feed_segment(&self.splits, &index, *split)), flow, look, pairs);
        *split = stands;
        raw::WatchHeard { bytes, pairs, refusal, held_start, held_length, all }
    }
}

impl SegmentEngine for Machine<'_> {
    fn hear(&self, flow: &mut machine::Flow, _split: &mut u32, look: Look<'_>, pairs: &mut [u32]) -> raw::WatchHeard {
        hear!(call!(watch_x_feed_segment(&self.moves(), &self.programs())), flow, look, pairs)
    }
}

/// A flow's segments, put in order by 32-bit sequence number: the number of the flow's first byte,
/// and what is held.
///
/// Numbers wrap past 4,294,967,295 to 0, and a number is ahead of another when it lies 1 to
/// 2,147,483,647 past it; further ahead counts as before. A segment whose bytes all came before is
/// dropped, one that overlaps gives its new end, and one that begins ahead is held until its turn
/// comes, if no other is held. Bytes first consumed or held count: what a resend brings for their
/// places is dropped.
///
/// ```
/// use watch::{Flow, List, Pair, Segments};
///
/// // Signature 7 after any "ab".
/// let bytes = *b"\x01\x00\xFF\0\0\0\0\0\x01aa\0\0\0\x01\0\x01bb\0\x01\0\x02\0\x02\0\0\0\0\0\0\0\x03\0\0\0\x02\0\x07\0";
/// let list = List::check(&bytes)?;
/// let mut told = Vec::new();
/// let mut flow = Flow::open_all(&list, |pair| told.push(pair));
/// let mut segments = Segments::new(1000);
///
/// segments.feed(&list, &mut flow, 1000, b"a", |pair| told.push(pair))?;
/// segments.feed(&list, &mut flow, 1000, b"ab", |pair| told.push(pair))?; // it overlaps: its new end is "b"
/// segments.feed(&list, &mut flow, 1003, b"b", |pair| told.push(pair))?; // it comes too early, and is held
/// segments.feed(&list, &mut flow, 1000, b"ab", |pair| told.push(pair))?; // sent again: dropped
/// segments.feed(&list, &mut flow, 1002, b"aX", |pair| told.push(pair))?; // "a", and then the "b" that is held
/// assert_eq!(told, [Pair { signature: 7, offset: 2 }, Pair { signature: 7, offset: 4 }]);
///
/// // Two that come too early: only one can be held, and the other has to be sent again.
/// segments.feed(&list, &mut flow, 1010, b"x", |_| ())?;
/// assert!(segments.feed(&list, &mut flow, 1020, b"x", |_| ()).unwrap_err().is_resend());
/// # Ok::<(), Box<dyn std::error::Error>>(())
/// ```
///
/// # Killed and started again
///
/// [`take`](Segments::take), [`due`](Segments::due) and a feed of what is due are one look at a
/// segment. At each look save the held buffer, then the held place, then feed, hand over the pairs,
/// and save the record, in this order; or save all three in one write. A flow that goes on from
/// what is saved loses nothing, and tells no pair of an offset up to the saved one again.
#[derive(Clone)]
pub struct Segments {
    first: u32,
    place: Held,
    buffer: [u8; HELD_SIZE],
    split: u32,
}

impl Segments {
    /// The segments of a flow whose first byte has number `first`. Nothing is held yet.
    #[must_use]
    pub fn new(first: u32) -> Segments {
        Segments::from_saved(first, Held::default(), [0; HELD_SIZE])
    }

    /// Goes on from what was saved.
    #[must_use]
    pub fn from_saved(first: u32, place: Held, buffer: [u8; HELD_SIZE]) -> Segments {
        Segments { first, place, buffer, split: 0 }
    }

    /// The number of the flow's first byte.
    #[must_use]
    pub fn first(&self) -> u32 {
        self.first
    }

    /// The held place.
    #[must_use]
    pub fn held(&self) -> Held {
        self.place
    }

    /// The held buffer; only as many bytes as are held count.
    #[must_use]
    pub fn buffer(&self) -> &[u8; HELD_SIZE] {
        &self.buffer
    }

    /// The number of the next byte due.
    #[must_use]
    pub fn next(&self, flow: &impl Record) -> u32 {
        self.first.wrapping_add(flow.offset())
    }

    /// Takes a segment whose first byte has number `start`: drops it, or holds it.
    ///
    /// # Errors
    ///
    /// [`Refusal::Segment`] (18), which changes nothing: the segment has to be sent again.
    pub fn take(&mut self, flow: &impl Record, start: u32, segment: &[u8]) -> Result<(), Refusal> {
        let (next, place) = (self.next(flow), self.place);
        let taken = call!(watch_take(next, &mut self.buffer, place.start, place.length, start, &segment));
        self.place = Held { start: taken.start, length: taken.length };
        Refusal::verdict(taken.refusal)
    }

    /// The next bytes due: a part of what is held or of the segment, whichever has them; empty
    /// where neither has. Call it after [`take`](Segments::take) with the same segment.
    #[must_use]
    pub fn due<'a>(&'a self, flow: &impl Record, start: u32, segment: &'a [u8]) -> &'a [u8] {
        let (next, place) = (self.next(flow), self.place);
        let part = call!(watch_due(next, &self.buffer, place.start, place.length, start, &segment));
        let from = if part.source == 1 { &self.buffer[..] } else { segment };
        &from[part.at as usize..][..part.length as usize]
    }

    /// Feeds a segment whose first byte has number `start` to a flow, by any of its engines, and
    /// hands each pair to `told`.
    ///
    /// ```
    /// use watch::{Flow, Index, List, Segments};
    ///
    /// let compiled = List::compile(b"ab", 7).unwrap();
    /// let list = compiled.list();
    /// let prepared = Index::prepare(&list).unwrap();
    /// let (mut flow, mut segments, mut told) = (Flow::open_all(&list, |_| ()), Segments::new(0), Vec::new());
    /// segments.feed(&prepared.index(), &mut flow, 1, b"b", |pair| told.push(pair.offset))?; // held
    /// segments.feed(&prepared.index(), &mut flow, 0, b"a", |pair| told.push(pair.offset))?;
    /// assert_eq!(told, [2]);
    /// # Ok::<(), watch::SegmentError>(())
    /// ```
    ///
    /// # Errors
    ///
    /// A segment that comes too early and can't be held has to be sent again
    /// ([`SegmentError::is_resend`]); what was due before it has been fed all the same. Where the
    /// flow has come to the largest offset ([`SegmentError::is_at_end`]),
    /// [`renew`](Segments::renew) it, and hand in the same segment again. After any other refusal
    /// the flow can't go on.
    pub fn feed<E: SegmentEngine>(
        &mut self,
        engine: &E,
        flow: &mut E::Flow,
        start: u32,
        segment: &[u8],
        mut told: impl FnMut(Pair),
    ) -> Result<(), SegmentError> {
        let (mut bytes, mut pairs) = (0, 0);
        loop {
            let mut words = [0; ENOUGH_WORDS];
            let (first, held, buffer) = (self.first, self.place, &mut self.buffer);
            let heard = engine.hear(flow, &mut self.split, Look { first, buffer, held, start, segment }, &mut words);
            self.place = Held { start: heard.held_start, length: heard.held_length };
            pairs_in(&words[..2 * heard.pairs as usize]).for_each(&mut told);
            bytes += heard.bytes as usize;
            pairs += heard.pairs as usize;
            match Refusal::verdict(heard.refusal) {
                Ok(()) if heard.all => return Ok(()),
                Ok(()) => {}
                Err(refusal) => return Err(SegmentError { refusal, bytes, pairs }),
            }
        }
    }

    /// Renews the flow, so that it goes on past the largest offset, and moves the number of its
    /// first byte on by the offset that it had, which is answered: add it to each offset told from
    /// here on. See [`Flow::renew`].
    ///
    /// # Errors
    ///
    /// [`Refusal::FlowRecord`] (4), which changes nothing.
    pub fn renew(&mut self, flow: &mut Flow) -> Result<u64, Refusal> {
        let offset = flow.renew()?;
        self.first = self.first.wrapping_add(offset as u32);
        Ok(offset)
    }
}

impl fmt::Debug for Segments {
    fn fmt(&self, f: &mut fmt::Formatter<'_>) -> fmt::Result {
        f.debug_struct("Segments").field("first", &self.first).field("held", &self.place).finish_non_exhaustive()
    }
}

/// Why a segment was not fed to its end, after so many bytes and pairs. Those pairs have been told.
#[derive(Clone, Copy, Debug, PartialEq, Eq, Hash)]
pub struct SegmentError {
    refusal: Refusal,
    bytes: usize,
    pairs: usize,
}

impl SegmentError {
    /// The refusal.
    #[must_use]
    pub fn refusal(&self) -> Refusal {
        self.refusal
    }

    /// Bytes passed down to the flow before it.
    #[must_use]
    pub fn bytes(&self) -> usize {
        self.bytes
    }

    /// Pairs told before it.
    #[must_use]
    pub fn pairs(&self) -> usize {
        self.pairs
    }

    /// Whether the segment has to be sent again, refusal 18: another is held already, or it has too
    /// many bytes.
    #[must_use]
    pub fn is_resend(&self) -> bool {
        self.refusal == Refusal::Segment
    }

    /// Whether the flow has come to the largest offset, refusal 6, and has to be renewed.
    #[must_use]
    pub fn is_at_end(&self) -> bool {
        self.refusal == Refusal::TooLong
    }
}

impl fmt::Display for SegmentError {
    fn fmt(&self, f: &mut fmt::Formatter<'_>) -> fmt::Result {
        write!(f, "{} (after {} bytes and {} pairs)", self.refusal, self.bytes, self.pairs)
    }
}

#[cfg(feature = "std")]
impl std::error::Error for SegmentError {}

impl From<SegmentError> for Refusal {
    /// The refusal, without its counts.
    fn from(error: SegmentError) -> Refusal {
        error.refusal
    }
}

#[cfg(all(test, feature = "std"))]
mod tests {
    use super::{Held, SegmentEngine, Segments};
    use crate::{Flow, List, Refusal, Table, HELD_SIZE, MOST_OFFSET, OFFSET_AT, RESERVED_AT};
    use std::vec::Vec;

    /// A list that tells signature 9 at the opening and at every byte, by state 0.
    const EACH: &[u8] = b"\x01\x00\xFF\0\0\0\0\0\x02\0\0\0\0\0\0\0\x03\0\0\0\0\0\x09\0";

    /// The offsets told of segments in some order, one of them early and one twice.
    fn offsets<E: SegmentEngine<Flow = Flow>>(engine: &E, mut flow: Flow) -> Vec<u32> {
        let (mut segments, mut told) = (Segments::new(u32::MAX), Vec::new());
        for (start, segment) in [(u32::MAX, &b"ab"[..]), (4, b"f"), (0, b"bcd"), (0, b"b"), (3, b"e")] {
            segments.feed(engine, &mut flow, start, segment, |pair| told.push(pair.offset)).unwrap();
        }
        told
    }

    #[test]
    fn list_and_table_tell_the_same() {
        let list = List::check(EACH).unwrap();
        let (built, flow) = (Table::build(&list).unwrap(), Flow::open_all(&list, |_| ()));
        assert_eq!(offsets(&list, flow.clone()), [1, 2, 3, 4, 5, 6]);
        assert_eq!(offsets(&built.table(), flow), [1, 2, 3, 4, 5, 6]);
    }

    /// One byte before the largest offset, with another byte held: the first is fed, and then nothing fits.
    #[test]
    fn a_refusal_keeps_what_came_before() {
        let list = List::check(EACH).unwrap();
        let mut bytes = Flow::open_all(&list, |_| ()).into_bytes();
        bytes[OFFSET_AT..RESERVED_AT].copy_from_slice(&(u32::MAX - 1).to_le_bytes());
        let mut flow = Flow::from_bytes(bytes);
        let mut segments = Segments::from_saved(0, Held { start: u32::MAX, length: 1 }, [b'b'; HELD_SIZE]);
        let mut told = Vec::new();
        let start = segments.next(&flow);
        let error = segments.feed(&list, &mut flow, start, b"a", |pair| told.push(pair.offset)).unwrap_err();
        assert_eq!((error.refusal(), error.bytes(), error.pairs()), (Refusal::TooLong, 1, 1));
        assert!(error.is_at_end() && !error.is_resend());
        assert_eq!(segments.renew(&mut flow), Ok(MOST_OFFSET));
        segments.feed(&list, &mut flow, start, b"a", |pair| told.push(pair.offset)).unwrap();
        assert_eq!((told, segments.held().length), (std::vec![u32::MAX, 1], 0));
    }
}
