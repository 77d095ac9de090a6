//! The flow of a list: its record, its opening, and the plain feed.

use crate::call::call;
use crate::feed::sealed::Sealed;
use crate::{pairs_in, Engine, Fed, FedAll, List, Pair, Record, Refusal};
use crate::{ENOUGH_WORDS, FLOW_SIZE, OFFSET_AT, RESERVED_AT, ROWS_AT, STATES};
use core::fmt;

/// A flow: its record of [`FLOW_SIZE`] bytes, which is all that has to be kept between two pieces.
///
/// It begins with the frontier, a set; then come the offset at [`OFFSET_AT`], 4 zeros at
/// [`RESERVED_AT`] and the rows read at [`ROWS_AT`]. Any [`FLOW_SIZE`] bytes make a `Flow`; a feed
/// refuses those that can't have come from one, as those with a state that no record of the list
/// names. A record that was saved under another list and holds named states alone is not told from
/// a good one: it is run as it stands.
///
/// ```
/// use watch::{Flow, List, ENOUGH_WORDS, FLOW_SIZE};
///
/// # let bytes = *b"\x01\x00\xFF\0\0\0\0\0\x01aa\0\0\0\x01\0\x01bb\0\x01\0\x02\0\x02\0\0\0\0\0\0\0\x03\0\0\0\x02\0\x07\0";
/// let list = List::check(&bytes)?; // signature 7 after any "ab"
/// let mut words = [0; ENOUGH_WORDS];
/// let mut flow = Flow::open(&list, &mut words)?.flow;
/// assert!(flow.feed(&list, 0, b"a", &mut words)?.all);
/// let saved: [u8; FLOW_SIZE] = *flow.as_bytes();
///
/// let mut flow = Flow::from_bytes(saved);
/// let fed = flow.feed(&list, 1, b"bab", &mut words)?;
/// assert_eq!(words[..2 * fed.pairs], [7, 2, 7, 4]);
/// # Ok::<(), watch::Refusal>(())
/// ```
#[derive(Clone, PartialEq, Eq, Hash)]
pub struct Flow {
    pub(crate) bytes: [u8; FLOW_SIZE],
}

impl Sealed for Flow {}

impl Record for Flow {
    fn offset(&self) -> u32 {
        u32::from_le_bytes(self.bytes[OFFSET_AT..RESERVED_AT].try_into().expect("4 bytes"))
    }
}

impl Flow {
    /// Opens a flow on a list: the start states, offset 0, no rows read.
    ///
    /// The pairs of offset 0, one for each signature that a start state accepts, are in the first
    /// `2 * pairs` words; later words stay as they are, an odd last word always.
    ///
    /// # Errors
    ///
    /// [`Refusal::NoRoom`] (15) where these pairs do not all fit: no word is written then. With
    /// [`ENOUGH_WORDS`] words they always fit.
    ///
    /// ```
    /// # use watch::{Flow, List, Refusal};
    /// # let bytes = *b"\x02\0\0\0\0\0\0\0\x03\0\0\0\0\0\x05\0\x03\0\0\0\0\0\x03\0";
    /// let list = List::check(&bytes)?; // the start state accepts 5 and 3
    /// let mut words = [9; 5];
    ///
    /// let opened = Flow::open(&list, &mut words)?;
    /// assert_eq!((opened.pairs, words), (2, [3, 0, 5, 0, 9]));
    /// assert_eq!(Flow::open(&list, &mut words[..3]), Err(Refusal::NoRoom));
    /// # Ok::<(), Refusal>(())
    /// ```
    pub fn open(list: &List<'_>, pairs: &mut [u32]) -> Result<Opened, Refusal> {
        let mut flow = Flow { bytes: [0; FLOW_SIZE] };
        let opened = call!(watch_open(&list.bytes, &mut flow.bytes, &mut pairs));
        Refusal::verdict(opened.refusal)?;
        Ok(Opened { flow, pairs: opened.pairs as usize })
    }

    /// Opens a flow on a list, and hands each pair of offset 0 to `told`, in order.
    ///
    /// The room for pairs is its own, [`ENOUGH_WORDS`] words of the stack, so it is never refused.
    ///
    /// ```
    /// # use watch::{Flow, List};
    /// # let bytes = *b"\x02\0\0\0\0\0\0\0\x03\0\0\0\0\0\x05\0\x03\0\0\0\0\0\x03\0";
    /// # let list = List::check(&bytes).unwrap();
    /// // A list whose start state accepts 5 and 3:
    /// let mut told = Vec::new();
    /// let flow = Flow::open_all(&list, |pair| told.push(pair.to_string()));
    /// assert_eq!((flow.offset(), told), (0, vec!["3 0".to_string(), "5 0".to_string()]));
    /// ```
    pub fn open_all(list: &List<'_>, told: impl FnMut(Pair)) -> Flow {
        let mut words = [0; ENOUGH_WORDS];
        let opened = Flow::open(list, &mut words).expect("the list has passed, and there is room for every signature");
        opened.told(&words).for_each(told);
        opened.flow
    }

    /// The flow with a record that was saved.
    #[must_use]
    pub fn from_bytes(bytes: [u8; FLOW_SIZE]) -> Flow {
        Flow { bytes }
    }

    /// The record, to be saved.
    #[must_use]
    pub fn as_bytes(&self) -> &[u8; FLOW_SIZE] {
        &self.bytes
    }

    /// The record, to be saved.
    #[must_use]
    pub fn into_bytes(self) -> [u8; FLOW_SIZE] {
        self.bytes
    }

    /// The number of bytes consumed since the opening.
    #[must_use]
    pub fn offset(&self) -> u32 {
        Record::offset(self)
    }

    /// Rows read: for each byte consumed by a plain feed the states in the frontier before it, by a
    /// split feed the slots taken.
    #[must_use]
    pub fn rows_read(&self) -> u64 {
        u64::from_le_bytes(self.bytes[ROWS_AT..].try_into().expect("8 bytes"))
    }

    /// The states in the frontier, rising.
    ///
    /// ```
    /// # use watch::{Flow, List};
    /// # let bytes = *b"\x02\0\0\0\0\0\x03\0\x02\0\0\0\0\0\xFF\0";
    /// # let list = List::check(&bytes).unwrap();
    /// // A list with the start states 3 and 255:
    /// assert_eq!(Flow::open_all(&list, |_| ()).frontier().collect::<Vec<u16>>(), [3, 255]);
    /// ```
    pub fn frontier(&self) -> impl Iterator<Item = u16> + '_ {
        (0..STATES as u16).filter(|&state| self.bytes[usize::from(state / 8)] >> (state % 8) & 1 == 1)
    }

    /// Renews the record, so that the flow goes on past the largest offset: the frontier stays,
    /// offset and rows become 0. Answers the offset that it had, which is to be added to each
    /// offset told from here on. The pairs of offset 0 are not told again.
    ///
    /// # Errors
    ///
    /// [`Refusal::FlowRecord`] (4), where reserved bytes are not zero or the rows read are more
    /// than 1,024 x offset; nothing changes then.
    pub fn renew(&mut self) -> Result<u64, Refusal> {
        let offset = call!(watch_offset(&self.bytes));
        Refusal::verdict(call!(watch_renew(&mut self.bytes)))?;
        Ok(offset)
    }

    /// The plain feed of a piece that begins at offset `start` of the flow.
    ///
    /// The pairs of the bytes consumed are in the first `2 * pairs` words; later words stay as they
    /// are, an odd last word always.
    ///
    /// # Errors
    ///
    /// [`Refusal::FlowRecord`] (4), [`Refusal::OtherStart`] (5) and [`Refusal::TooLong`] (6), which
    /// change nothing.
    ///
    /// ```
    /// # use watch::{Flow, List, Refusal};
    /// # let bytes = *b"\x01\x00\xFF\0\0\0\0\0\x01aa\0\0\0\x01\0\x01bb\0\x01\0\x02\0\x02\0\0\0\0\0\0\0\x03\0\0\0\x02\0\x07\0";
    /// let list = List::check(&bytes)?; // signature 7 after any "ab"
    /// let mut words = [0; 2]; // room for one pair
    /// let mut flow = Flow::open(&list, &mut words)?.flow;
    ///
    /// let fed = flow.feed(&list, 0, b"abab", &mut words)?;
    /// assert_eq!((fed.bytes, fed.pairs, fed.all), (3, 1, false)); // paused before the second pair
    /// assert_eq!(words, [7, 2]);
    ///
    /// let again = flow.feed(&list, 0, b"abab", &mut words);
    /// assert_eq!(again, Err(Refusal::OtherStart)); // the flow is at 3
    ///
    /// let fed = flow.feed(&list, 3, b"b", &mut words)?;
    /// assert_eq!((fed.bytes, fed.pairs, fed.all), (1, 1, true));
    /// assert_eq!(words, [7, 4]);
    /// # Ok::<(), Refusal>(())
    /// ```
    pub fn feed(&mut self, list: &List<'_>, start: u64, piece: &[u8], pairs: &mut [u32]) -> Result<Fed, Refusal> {
        Engine::feed(list, self, &mut 0, start, piece, pairs).map_err(|error| error.refusal())
    }

    /// The plain feed of a whole piece that begins at offset `start` of the flow. Each pair is
    /// handed to `told`, in order, and after a pause the rest is fed from its middle.
    ///
    /// The room for pairs is its own, [`ENOUGH_WORDS`] words of the stack.
    ///
    /// # Errors
    ///
    /// Those of [`feed`](Flow::feed). They come before the first byte: nothing is then consumed,
    /// changed or told.
    ///
    /// ```
    /// # use watch::{Flow, List, Refusal};
    /// # let bytes = *b"\x01\x00\xFF\0\0\0\0\0\x01aa\0\0\0\x01\0\x01bb\0\x01\0\x02\0\x02\0\0\0\0\0\0\0\x03\0\0\0\x02\0\x07\0";
    /// let list = List::check(&bytes)?; // signature 7 after any "ab"
    /// let mut told = Vec::new();
    ///
    /// let mut flow = Flow::open_all(&list, |pair| told.push(pair));
    /// let fed = flow.feed_all(&list, 0, &b"ab".repeat(1000), |pair| told.push(pair))?;
    /// assert_eq!((fed.bytes, fed.pairs), (2000, 1000));
    /// assert_eq!((told.len(), told[999].to_string()), (1000, "7 2000".to_string()));
    ///
    /// // The same piece once more, as after a resend: refused, and nothing is told twice.
    /// let again = flow.feed_all(&list, 0, b"ab", |pair| told.push(pair));
    /// assert_eq!(again, Err(Refusal::OtherStart));
    /// assert_eq!(told.len(), 1000);
    /// # Ok::<(), Refusal>(())
    /// ```
    pub fn feed_all(
        &mut self,
        list: &List<'_>,
        start: u64,
        piece: &[u8],
        told: impl FnMut(Pair),
    ) -> Result<FedAll, Refusal> {
        list.feed_all(self, &mut 0, start, piece, told).map_err(|error| error.refusal())
    }
}

impl From<[u8; FLOW_SIZE]> for Flow {
    fn from(bytes: [u8; FLOW_SIZE]) -> Flow {
        Flow { bytes }
    }
}

impl TryFrom<&[u8]> for Flow {
    type Error = Refusal;

    /// The flow with a saved record of any length: refusal 4 where it is not [`FLOW_SIZE`].
    fn try_from(bytes: &[u8]) -> Result<Flow, Refusal> {
        match bytes.try_into() {
            Ok(bytes) => Ok(Flow { bytes }),
            Err(_) => Err(Refusal::FlowRecord),
        }
    }
}

impl AsRef<[u8]> for Flow {
    fn as_ref(&self) -> &[u8] {
        &self.bytes
    }
}

impl fmt::Debug for Flow {
    fn fmt(&self, f: &mut fmt::Formatter<'_>) -> fmt::Result {
        f.debug_struct("Flow")
            .field("offset", &self.offset())
            .field("rows_read", &self.rows_read())
            .field("frontier", &Frontier(self))
            .finish()
    }
}

/// The frontier of a flow, shown as the list of its states.
struct Frontier<'a>(&'a Flow);

impl fmt::Debug for Frontier<'_> {
    fn fmt(&self, f: &mut fmt::Formatter<'_>) -> fmt::Result {
        f.debug_list().entries(self.0.frontier()).finish()
    }
}

/// What an opening that was not refused did.
#[derive(Clone, Debug, PartialEq, Eq, Hash)]
#[must_use = "the pairs of offset 0 are told by the opening alone"]
#[non_exhaustive]
pub struct Opened<F = Flow> {
    /// The flow.
    pub flow: F,
    /// Pairs of offset 0 written, two words each.
    pub pairs: usize,
}

impl<F> Opened<F> {
    /// The pairs told, read from the buffer that the opening wrote.
    ///
    /// # Panics
    ///
    /// Where the buffer is shorter than what the opening wrote: it is another one.
    pub fn told<'w>(&self, words: &'w [u32]) -> impl Iterator<Item = Pair> + 'w {
        pairs_in(&words[..2 * self.pairs])
    }
}
