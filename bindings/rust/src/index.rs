//! The index of splits: its filler, preparing one straight from a list, and the prepared feed.

use crate::call::call;
use crate::feed::sealed::Sealed;
use crate::table::call_table;
use crate::{raw, Engine, Fed, FedAll, Flow, List, Pair, Refusal, SplitError, Table, SPLIT_SIZE};
use core::fmt;

#[cfg(feature = "std")]
use crate::{PREPARE_INDEX, PREPARE_SPLITS};

/// The index of splits: what [`Flow::prepared_feed`] runs, with these splits. Of a table, or
/// straight from a list.
///
/// It owns its bytes, or borrows them, as `B` does: `Vec<u8>`, `Box<[u8]>`, an array, or a lent
/// `&mut [u8]`.
#[derive(Clone, Copy, PartialEq, Eq)]
pub struct Index<'a, B> {
    pub(crate) splits: &'a [u8],
    pub(crate) bytes: B,
}

impl<'a, B: AsRef<[u8]>> Index<'a, B> {
    /// Fills the index of a table into bytes, [`Table::index_size`] of them.
    ///
    /// # Errors
    ///
    /// 7 to 13 as in [`Table::check`], which it runs; 8 also where the bytes are more or fewer. A
    /// table that has passed, and so many bytes, are not refused.
    pub fn fill(table: &Table<'a>, mut bytes: B) -> Result<Index<'a, B>, Refusal>
    where
        B: AsMut<[u8]>,
    {
        Refusal::verdict(call_table!(watch_fill_index(table, &mut bytes.as_mut())))?;
        Ok(Index { splits: table.lists.splits, bytes })
    }

    /// An index that was filled before and saved, with its splits. Nothing is unsafe about a wrong
    /// one, but a prepared feed may then refuse it (8), halt (14), or tell other pairs than the
    /// split feed.
    #[must_use]
    pub fn from_saved(splits: &'a [u8], bytes: B) -> Index<'a, B> {
        Index { splits, bytes }
    }

    /// The splits that the index is of.
    #[must_use]
    pub fn splits(&self) -> &'a [u8] {
        self.splits
    }

    /// The index's bytes, to be saved.
    #[must_use]
    pub fn as_bytes(&self) -> &[u8] {
        self.bytes.as_ref()
    }

    /// What the index was filled into.
    #[must_use]
    pub fn into_bytes(self) -> B {
        self.bytes
    }
}

impl<B> Sealed for Index<'_, B> {}

impl<B: AsRef<[u8]>> Engine for Index<'_, B> {
    type Flow = Flow;

    fn feed(
        &self,
        flow: &mut Flow,
        split: &mut u32,
        start: u64,
        piece: &[u8],
        pairs: &mut [u32],
    ) -> Result<Fed, SplitError> {
        let index = self.bytes.as_ref();
        let raw::WatchStood { bytes, pairs, refusal, split: stands, all } =
            call!(watch_prepared_feed(&self.splits, &index, *split, &mut flow.bytes, start, &piece, &mut pairs));
        *split = stands;
        Fed::verdict(raw::WatchFed { bytes, pairs, refusal, all })
    }
}

impl<B: AsRef<[u8]>> fmt::Debug for Index<'_, B> {
    fn fmt(&self, f: &mut fmt::Formatter<'_>) -> fmt::Result {
        write!(f, "Index({} splits)", self.splits.len() / SPLIT_SIZE)
    }
}

impl<'a> Index<'a, &'a [u8]> {
    /// Prepares splits and their index straight from a list, in two lent lists.
    ///
    /// The splits have to have [`PREPARE_SPLITS`](crate::PREPARE_SPLITS) bytes and the index
    /// [`PREPARE_INDEX`](crate::PREPARE_INDEX), and each may have more; the fronts that are used
    /// are answered, and zeros follow them.
    ///
    /// # Errors
    ///
    /// [`Refusal::LentLists`] (17), which changes nothing, and [`Refusal::TooMany`] (16), which
    /// fills both with zeros.
    pub fn prepare_in(
        list: &List<'_>,
        splits: &'a mut [u8],
        index: &'a mut [u8],
    ) -> Result<Index<'a, &'a [u8]>, Refusal> {
        let made = call!(watch_prepare(&list.bytes, &mut splits, &mut index));
        Refusal::verdict(made.refusal)?;
        Ok(Index { splits: &splits[..made.splits as usize], bytes: &index[..made.index as usize] })
    }

    /// Prepares splits and their index straight from a list, in memory of their own. It takes some
    /// 5 MB while it prepares.
    ///
    /// # Errors
    ///
    /// [`Refusal::TooMany`] (16).
    ///
    /// ```
    /// use watch::{Flow, Index, List, SPLIT_SIZE};
    ///
    /// # let bytes = *b"\x01\x00\xFF\0\0\0\0\0\x01aa\0\0\0\x01\0\x01bb\0\x01\0\x02\0\x02\0\0\0\0\0\0\0\x03\0\0\0\x02\0\x07\0";
    /// let list = List::check(&bytes)?; // signature 7 after any "ab"
    /// let prepared = Index::prepare(&list)?;
    /// let index = prepared.index();
    /// assert_eq!(index.splits().len(), 3 * SPLIT_SIZE); // {0}, {0, 1} and {0, 2} can be reached
    ///
    /// let (mut told, mut split) = (Vec::new(), 0);
    /// let mut flow = Flow::open_all(&list, |_| ());
    /// flow.prepared_feed_all(&index, &mut split, 0, b"abab", |pair| told.push(pair.to_string()))?;
    /// assert_eq!(told, ["7 2", "7 4"]);
    /// assert_eq!((split, flow.rows_read()), (2, 4)); // at {0, 2}, after one row a byte
    /// # Ok::<(), watch::SplitError>(())
    /// ```
    #[cfg(feature = "std")]
    pub fn prepare(list: &List<'_>) -> Result<Prepared, Refusal> {
        let [mut splits, mut bytes] = [PREPARE_SPLITS, PREPARE_INDEX].map(|length| std::vec![0; length]);
        let index = Index::prepare_in(list, &mut splits, &mut bytes)?;
        let lengths = [index.splits.len(), index.bytes.len()];
        for (list, length) in [&mut splits, &mut bytes].into_iter().zip(lengths) {
            list.truncate(length);
            list.shrink_to_fit();
        }
        Ok(Prepared { splits, bytes })
    }
}

/// Splits and their index that were prepared, in memory of their own.
#[cfg(feature = "std")]
#[derive(Clone, PartialEq, Eq)]
pub struct Prepared {
    splits: std::vec::Vec<u8>,
    bytes: std::vec::Vec<u8>,
}

#[cfg(feature = "std")]
impl Prepared {
    /// The index, with its splits. It needs no check: it is proved that it is right for the list
    /// that it was prepared of.
    #[must_use]
    pub fn index(&self) -> Index<'_, &[u8]> {
        Index { splits: &self.splits, bytes: &self.bytes }
    }
}

#[cfg(feature = "std")]
impl fmt::Debug for Prepared {
    fn fmt(&self, f: &mut fmt::Formatter<'_>) -> fmt::Result {
        write!(f, "Prepared({:?})", self.index())
    }
}

impl Flow {
    /// The prepared feed of a piece that begins at offset `start` of the flow, by an index. With an
    /// index that [`Index::fill`] gave it is [`split_feed`](Flow::split_feed) with that index's
    /// table, on every flow, start, piece and buffer; with one of [`Index::prepare_in`], on a flow
    /// opened on its list, [`feed`](Flow::feed) but for the rows read.
    ///
    /// `split` is a hint: the split where the flow stands, left there by the call before. Any
    /// number may be handed in, and 0 for a new flow: one that is wrong costs a search. Afterwards
    /// it is the split where the flow then stands, or the number of splits where it stands at none;
    /// [`SplitError::Refused`] leaves it.
    ///
    /// # Errors
    ///
    /// [`SplitError::Refused`] with 4 to 6 or 8, where nothing has changed; [`SplitError::Halted`]
    /// where the frontier before a byte is no split.
    ///
    /// ```
    /// # use watch::{Flow, Index, List, SplitError, Table, TableLists, BYTE_VALUES, SET_SIZE};
    /// # let bytes = *b"\x01\x00\xFF\0\0\0\0\0\x02\0\0\0\0\0\0\0\x03\0\0\0\0\0\x09\0";
    /// # let list = List::check(&bytes)?;
    /// # let classes = [0; BYTE_VALUES];
    /// # let mut set = [0; SET_SIZE];
    /// # set[0] = 1;
    /// # let splits = [&set[..], &[0, 0, 255, 255, 255, 255, 255, 255]].concat();
    /// // Signature 9 at opening and at every byte, by state 0:
    /// let table = Table::check(&list, 1, TableLists { classes: &classes, parts: &set, rows: &set, splits: &splits })?;
    /// let index = Index::fill(&table, vec![0; table.index_size()])?;
    ///
    /// let mut words = [0; 4];
    /// let mut flow = Flow::open(&list, &mut words)?.flow;
    /// let mut split = 77;
    /// let fed = flow.prepared_feed(&index, &mut split, 0, b"xyz", &mut words)?;
    /// assert_eq!((fed.bytes, fed.all, words), (2, false, [9, 1, 9, 2])); // paused before the third pair
    /// assert_eq!(split, 0);
    /// # Ok::<(), SplitError>(())
    /// ```
    pub fn prepared_feed<B: AsRef<[u8]>>(
        &mut self,
        index: &Index<'_, B>,
        split: &mut u32,
        start: u64,
        piece: &[u8],
        pairs: &mut [u32],
    ) -> Result<Fed, SplitError> {
        index.feed(self, split, start, piece, pairs)
    }

    /// The prepared feed of a whole piece that begins at offset `start` of the flow, as
    /// [`split_feed_all`](Flow::split_feed_all) is the split feed.
    ///
    /// # Errors
    ///
    /// Those of [`prepared_feed`](Flow::prepared_feed); what was fed before a halt is told.
    pub fn prepared_feed_all<B: AsRef<[u8]>>(
        &mut self,
        index: &Index<'_, B>,
        split: &mut u32,
        start: u64,
        piece: &[u8],
        told: impl FnMut(Pair),
    ) -> Result<FedAll, SplitError> {
        index.feed_all(self, split, start, piece, told)
    }
}
