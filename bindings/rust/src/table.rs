//! The split table: its check, its builder, and the split feed.

use crate::call::call;
use crate::feed::sealed::Sealed;
use crate::{Engine, Fed, FedAll, Flow, List, Pair, Refusal, SplitError, ENTRY_SIZE, SET_SIZE, SPLIT_SIZE};
use core::fmt;

#[cfg(feature = "std")]
use crate::{LENT_CLASSES, LENT_PARTS, LENT_ROWS, LENT_SPLITS};

/// The four lists of a split table, as they are.
///
/// A set is [`SET_SIZE`] bytes: state s is bit s mod 8 of byte s div 8.
#[derive(Clone, Copy, PartialEq, Eq)]
pub struct TableLists<'a> {
    /// The class of each byte: exactly [`BYTE_VALUES`](crate::BYTE_VALUES) bytes, each 0 to
    /// [`MOST_CLASS`](crate::MOST_CLASS).
    pub classes: &'a [u8],
    /// 1 to [`MOST_PARTS`](crate::MOST_PARTS) sets.
    pub parts: &'a [u8],
    /// A set for each part and class: the row of part p and class k is number p × K + k, K the
    /// largest class plus 1.
    pub rows: &'a [u8],
    /// 1 to [`MOST_SPLITS`](crate::MOST_SPLITS) records of [`SPLIT_SIZE`] bytes: a set, then
    /// [`SLOTS`](crate::SLOTS) slots, each a 2-byte part number, or [`UNUSED`](crate::UNUSED).
    pub splits: &'a [u8],
}

impl fmt::Debug for TableLists<'_> {
    fn fmt(&self, f: &mut fmt::Formatter<'_>) -> fmt::Result {
        let [parts, rows] = [self.parts, self.rows].map(|sets| sets.len() / SET_SIZE);
        write!(f, "TableLists({parts} parts, {rows} rows, {} splits)", self.splits.len() / SPLIT_SIZE)
    }
}

/// A split table with the list and the bound that it is for.
#[derive(Clone, Copy, Debug, PartialEq, Eq)]
pub struct Table<'a> {
    pub(crate) list: List<'a>,
    pub(crate) bound: u64,
    pub(crate) lists: TableLists<'a>,
}

/// Calls a function of the archive that takes a table: its list, its bound and its four lists, and
/// then the other words.
macro_rules! call_table {
    ($name:ident($table:expr, $($rest:tt)*)) => {
        $crate::call::call!($name(
            &$table.list.bytes, $table.bound, &$table.lists.classes, &$table.lists.parts, &$table.lists.rows,
            &$table.lists.splits, $($rest)*
        ))
    };
}

pub(crate) use call_table;

impl<'a> Table<'a> {
    /// Checks a table against a list, at a bound of 1 to [`MOST_BOUND`](crate::MOST_BOUND) rows a
    /// byte.
    ///
    /// # Errors
    ///
    /// 7 to 13: [`Refusal::Bound`], [`Refusal::TableLists`], [`Refusal::SplitRecord`],
    /// [`Refusal::WrongRow`], [`Refusal::WrongUnion`], [`Refusal::NoStartSplit`] and
    /// [`Refusal::NotClosed`].
    ///
    /// ```
    /// use watch::{List, Refusal, Table, TableLists, MOST_BOUND};
    ///
    /// let list = List::check(&[2, 0, 0, 0, 0, 0, 0, 0]).unwrap();
    /// let none = TableLists { classes: &[], parts: &[], rows: &[], splits: &[] };
    /// assert_eq!(Table::check(&list, MOST_BOUND + 1, none), Err(Refusal::Bound));
    /// assert_eq!(Table::check(&list, 1, none), Err(Refusal::TableLists));
    /// ```
    pub fn check(list: &List<'a>, bound: u64, lists: TableLists<'a>) -> Result<Table<'a>, Refusal> {
        let table = Table { list: *list, bound, lists };
        Refusal::verdict(call_table!(watch_check_table(table,)))?;
        Ok(table)
    }

    /// A table that passed when it was saved, and is not checked here: the check works through
    /// every part and split on every byte. Nothing is unsafe about a bad one, but a split feed may
    /// then refuse it (7, 8, 9), halt (14), or tell other pairs than the plain feed.
    #[must_use]
    pub fn from_saved(list: &List<'a>, bound: u64, lists: TableLists<'a>) -> Table<'a> {
        Table { list: *list, bound, lists }
    }

    /// Builds the table of a list at bound 1 in four lent lists.
    ///
    /// Each list has to have its `LENT_` bytes, and may have more; the table has the fronts that
    /// are used, and zeros follow them. The table needs no check: it is proved that it would pass.
    ///
    /// # Errors
    ///
    /// [`Refusal::LentLists`] (17), which changes nothing, and [`Refusal::TooMany`] (16), which
    /// fills the lists with zeros.
    pub fn build_in(list: &List<'a>, lent: LentLists<'a>) -> Result<Table<'a>, Refusal> {
        let LentLists { classes, parts, rows, splits } = lent;
        let built = call!(watch_build(&list.bytes, &mut classes, &mut parts, &mut rows, &mut splits));
        Refusal::verdict(built.refusal)?;
        let lists = TableLists {
            classes: &classes[..built.classes as usize],
            parts: &parts[..built.parts as usize],
            rows: &rows[..built.rows as usize],
            splits: &splits[..built.splits as usize],
        };
        Ok(Table { list: *list, bound: 1, lists })
    }

    /// Builds the table of a list at bound 1, in memory of its own. It takes some 9 MB while it
    /// builds.
    ///
    /// # Errors
    ///
    /// [`Refusal::TooMany`] (16).
    ///
    /// ```
    /// use watch::{Flow, Index, List, Table, SET_SIZE};
    ///
    /// # let bytes = *b"\x01\x00\xFF\0\0\0\0\0\x01aa\0\0\0\x01\0\x01bb\0\x01\0\x02\0\x02\0\0\0\0\0\0\0\x03\0\0\0\x02\0\x07\0";
    /// let list = List::check(&bytes)?; // signature 7 after any "ab"
    /// let built = Table::build(&list)?;
    /// let table = built.table();
    /// assert_eq!(table.lists().parts.len(), 3 * SET_SIZE); // {0}, {0, 1} and {0, 2} can be reached
    ///
    /// let index = Index::fill(&table, vec![0; table.index_size()])?;
    /// let mut told = Vec::new();
    /// let mut flow = Flow::open_all(&list, |_| ());
    /// flow.prepared_feed_all(&index, &mut 0, 0, b"abab", |pair| told.push(pair.to_string()))?;
    /// assert_eq!(told, ["7 2", "7 4"]);
    /// assert_eq!(flow.rows_read(), 4); // one row a byte
    /// # Ok::<(), watch::SplitError>(())
    /// ```
    #[cfg(feature = "std")]
    pub fn build(list: &List<'a>) -> Result<Built<'a>, Refusal> {
        let [mut classes, mut parts, mut rows, mut splits] =
            [LENT_CLASSES, LENT_PARTS, LENT_ROWS, LENT_SPLITS].map(|length| std::vec![0; length]);
        let lent = LentLists { classes: &mut classes, parts: &mut parts, rows: &mut rows, splits: &mut splits };
        let TableLists { classes: c, parts: p, rows: r, splits: s } =
            Table::build_in(&List { bytes: list.bytes }, lent)?.lists;
        let lengths = [c.len(), p.len(), r.len(), s.len()];
        for (list, length) in [&mut classes, &mut parts, &mut rows, &mut splits].into_iter().zip(lengths) {
            list.truncate(length);
            list.shrink_to_fit();
        }
        Ok(Built { list: *list, classes, parts, rows, splits })
    }

    /// The list that the table is for.
    #[must_use]
    pub fn list(&self) -> List<'a> {
        self.list
    }

    /// The most rows that a byte may read.
    #[must_use]
    pub fn bound(&self) -> u64 {
        self.bound
    }

    /// The table's four lists.
    #[must_use]
    pub fn lists(&self) -> TableLists<'a> {
        self.lists
    }

    /// The bytes of the table's index: a set of states, then an entry for each split.
    #[must_use]
    pub fn index_size(&self) -> usize {
        SET_SIZE + ENTRY_SIZE * (self.lists.splits.len() / SPLIT_SIZE)
    }
}

impl Sealed for Table<'_> {}

impl Engine for Table<'_> {
    type Flow = Flow;

    fn feed(
        &self,
        flow: &mut Flow,
        _split: &mut u32,
        start: u64,
        piece: &[u8],
        pairs: &mut [u32],
    ) -> Result<Fed, SplitError> {
        Fed::verdict(call_table!(watch_split_feed(self, &mut flow.bytes, start, &piece, &mut pairs)))
    }
}

/// Four lists to build a table in, each of its `LENT_` bytes or more.
#[derive(Debug)]
pub struct LentLists<'a> {
    /// For the classes: [`LENT_CLASSES`](crate::LENT_CLASSES) bytes.
    pub classes: &'a mut [u8],
    /// For the parts: [`LENT_PARTS`](crate::LENT_PARTS) bytes.
    pub parts: &'a mut [u8],
    /// For the rows: [`LENT_ROWS`](crate::LENT_ROWS) bytes.
    pub rows: &'a mut [u8],
    /// For the splits: [`LENT_SPLITS`](crate::LENT_SPLITS) bytes.
    pub splits: &'a mut [u8],
}

/// A table that was built, in memory of its own.
#[cfg(feature = "std")]
#[derive(Clone, PartialEq, Eq)]
pub struct Built<'a> {
    list: List<'a>,
    classes: std::vec::Vec<u8>,
    parts: std::vec::Vec<u8>,
    rows: std::vec::Vec<u8>,
    splits: std::vec::Vec<u8>,
}

#[cfg(feature = "std")]
impl Built<'_> {
    /// The table, for the list that it was built of, at bound 1. It needs no check: it is proved
    /// that it would pass.
    #[must_use]
    pub fn table(&self) -> Table<'_> {
        Table { list: self.list, bound: 1, lists: self.lists() }
    }

    /// The table's four lists.
    #[must_use]
    pub fn lists(&self) -> TableLists<'_> {
        TableLists { classes: &self.classes, parts: &self.parts, rows: &self.rows, splits: &self.splits }
    }
}

#[cfg(feature = "std")]
impl fmt::Debug for Built<'_> {
    fn fmt(&self, f: &mut fmt::Formatter<'_>) -> fmt::Result {
        write!(f, "Built({:?})", self.lists())
    }
}

impl Flow {
    /// The split feed of a piece that begins at offset `start` of the flow, by the table and the
    /// table's list.
    ///
    /// A flow that was opened on the list and fed by nothing but the list and tables that have
    /// passed its check is never halted. It may change between them at any piece, each table at its
    /// own bound: the pairs and the frontier are as if nothing was changed, and each feed adds its
    /// own rows.
    ///
    /// Each call tests once, before any byte, that the sets of the table's splits strictly rise.
    /// What this costs goes by the number of splits, so that pieces of many bytes are cheaper than
    /// single ones.
    ///
    /// # Errors
    ///
    /// [`SplitError::Refused`] with 4 to 9, where nothing has changed; [`SplitError::Halted`] where
    /// the frontier before a byte is no split.
    ///
    /// ```
    /// # use watch::{Flow, List, SplitError, Table, TableLists, BYTE_VALUES, FLOW_SIZE, SET_SIZE};
    /// # fn set(states: &[u8]) -> [u8; SET_SIZE] {
    /// #     let mut set = [0; SET_SIZE];
    /// #     states.iter().for_each(|s| set[usize::from(s / 8)] |= 1 << (s % 8));
    /// #     set
    /// # }
    /// # let bytes = *b"\x01\x00\xFF\0\0\0\0\0\x02\0\0\0\0\0\0\0\x03\0\0\0\0\0\x09\0";
    /// let list = List::check(&bytes)?; // signature 9 at opening and at every byte, by state 0
    /// let classes = [0; BYTE_VALUES];
    /// let parts = set(&[0]);
    /// let rows = set(&[0]);
    /// let splits = [&set(&[0])[..], &[0, 0, 255, 255, 255, 255, 255, 255]].concat();
    /// let table = Table::check(&list, 1, TableLists { classes: &classes, parts: &parts, rows: &rows, splits: &splits })?;
    ///
    /// let mut words = [0; 3];
    /// let mut flow = Flow::open(&list, &mut words)?.flow;
    /// assert_eq!(words, [9, 0, 0]);
    /// let fed = flow.split_feed(&table, 0, b"x", &mut words)?;
    /// assert_eq!((fed.all, words), (true, [9, 1, 0]));
    ///
    /// // The list alone goes on, and then a table of another bound.
    /// flow.feed(&list, 1, b"y", &mut words)?;
    /// assert_eq!(words, [9, 2, 0]);
    /// let other = Table::check(&list, 2, table.lists())?;
    /// flow.split_feed(&other, 2, b"z", &mut words)?;
    /// assert_eq!((words, flow.rows_read()), ([9, 3, 0], 3));
    ///
    /// // A record from elsewhere, with a frontier that is no split: halted at its first byte.
    /// let mut lost = Flow::from_bytes([0; FLOW_SIZE]);
    /// let halted = lost.split_feed(&table, 0, b"x", &mut words).unwrap_err();
    /// assert_eq!((halted.refusal().number(), halted.bytes(), halted.pairs()), (14, 0, 0));
    /// # Ok::<(), SplitError>(())
    /// ```
    pub fn split_feed(
        &mut self,
        table: &Table<'_>,
        start: u64,
        piece: &[u8],
        pairs: &mut [u32],
    ) -> Result<Fed, SplitError> {
        table.feed(self, &mut 0, start, piece, pairs)
    }

    /// The split feed of a whole piece that begins at offset `start` of the flow, as
    /// [`feed_all`](Flow::feed_all) is the plain one.
    ///
    /// # Errors
    ///
    /// Those of [`split_feed`](Flow::split_feed). Where it halts, the pairs before that have been
    /// handed to `told`, and the error counts bytes and pairs from the piece's front. Every other
    /// refusal comes before the first byte, but where a table that has not passed the check leads
    /// to a state that the list does not name: if room runs out there the rest is refused with 4,
    /// [`SplitError::Foreign`].
    ///
    /// ```
    /// # use watch::{Flow, List, Refusal, SplitError, Table, TableLists, BYTE_VALUES, SET_SIZE};
    /// # let bytes = *b"\x01\x00\xFF\0\0\0\0\0\x02\0\0\0\0\0\0\0\x03\0\0\0\0\0\x09\0";
    /// # let list = List::check(&bytes)?;
    /// # let classes = [0; BYTE_VALUES];
    /// # let mut set = [0; SET_SIZE];
    /// # set[0] = 1;
    /// # let splits = [&set[..], &[0, 0, 255, 255, 255, 255, 255, 255]].concat();
    /// // Signature 9 at opening and at every byte, by state 0:
    /// let table = Table::check(&list, 1, TableLists { classes: &classes, parts: &set, rows: &set, splits: &splits })?;
    /// let mut told = 0;
    /// let mut flow = Flow::open_all(&list, |_| told += 1);
    /// let fed = flow.split_feed_all(&table, 0, &[0; 1000], |_| told += 1)?;
    /// assert_eq!((fed.bytes, fed.pairs, told), (1000, 1000, 1001));
    ///
    /// // Rows that lead to a set that is no split: halted at the second byte.
    /// let table = Table::from_saved(&list, 1, TableLists { rows: &[0; SET_SIZE], ..table.lists() });
    /// let halted = flow.split_feed_all(&table, 1000, b"xx", |_| told += 1).unwrap_err();
    /// assert_eq!((halted.refusal(), halted.bytes(), halted.pairs()), (Refusal::NoSplit, 1, 0));
    /// # Ok::<(), SplitError>(())
    /// ```
    pub fn split_feed_all(
        &mut self,
        table: &Table<'_>,
        start: u64,
        piece: &[u8],
        told: impl FnMut(Pair),
    ) -> Result<FedAll, SplitError> {
        table.feed_all(self, &mut 0, start, piece, told)
    }
}
