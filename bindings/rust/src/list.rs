//! The signature list: its check, the plain feed, and lists joined and folded.

use crate::call::call;
use crate::feed::sealed::Sealed;
use crate::{assert_version, Engine, Fed, Flow, Opened, Refusal, SplitError, RECORD_SIZE, ROW_SIZE};
use core::fmt;

#[cfg(feature = "std")]
use crate::{Compiled, MOST_LIST};

/// A signature list that has passed its check.
///
/// It is 1 to [`MOST_RECORDS`](crate::MOST_RECORDS) records of [`RECORD_SIZE`] bytes: edges
/// `1 low high case from from to to`, starts `2 0 0 0 0 0 state state`, accepts
/// `3 0 0 0 state state signature signature`. Two-byte numbers have the low byte first. States are
/// below [`STATES`](crate::STATES), signatures below [`SIGNATURES`](crate::SIGNATURES). An edge is
/// taken on a byte from low to high, where its case is 1 also on a byte that is one with ASCII
/// letter case exchanged; else its case is 0.
#[derive(Clone, Copy, PartialEq, Eq)]
pub struct List<'a> {
    pub(crate) bytes: &'a [u8],
}

impl<'a> List<'a> {
    /// Checks a list.
    ///
    /// # Errors
    ///
    /// [`Refusal::ListLength`] (1), [`Refusal::ListRecord`] (2) and [`Refusal::NoStart`] (3).
    ///
    /// # Panics
    ///
    /// Where the linked archive has another version of the face than this crate is written for,
    /// [`VERSION`](crate::VERSION).
    ///
    /// ```
    /// use watch::{List, Refusal, STATES};
    ///
    /// let start = |state: usize| [2, 0, 0, 0, 0, 0, state as u8, (state >> 8) as u8];
    /// assert!(List::check(&start(STATES - 1)).is_ok());
    /// assert_eq!(List::check(&start(STATES)), Err(Refusal::ListRecord));
    /// assert_eq!(List::check(&[1, 0, 9, 0, 0, 0, 0, 0]), Err(Refusal::NoStart));
    /// ```
    pub fn check(bytes: &'a [u8]) -> Result<List<'a>, Refusal> {
        assert_version();
        Refusal::verdict(call!(watch_check_list(&bytes)))?;
        Ok(List { bytes })
    }

    /// Opens a flow on the list, as [`Flow::open`] does.
    ///
    /// # Errors
    ///
    /// [`Refusal::NoRoom`] (15).
    ///
    /// ```
    /// # use watch::{Flow, List};
    /// # let bytes = *b"\x02\0\0\0\0\0\0\0\x03\0\0\0\0\0\x05\0\x03\0\0\0\0\0\x03\0";
    /// # let list = List::check(&bytes).unwrap();
    /// // A list whose start state accepts 5 and 3:
    /// let mut words = [9; 5];
    /// assert_eq!(list.open(&mut words).unwrap().pairs, 2);
    /// assert_eq!(words, [3, 0, 5, 0, 9]);
    /// ```
    pub fn open(&self, pairs: &mut [u32]) -> Result<Opened, Refusal> {
        Flow::open(self, pairs)
    }

    /// The list's bytes.
    #[must_use]
    pub fn as_bytes(&self) -> &'a [u8] {
        self.bytes
    }

    /// The number of records.
    #[must_use]
    pub fn records(&self) -> usize {
        self.bytes.len() / RECORD_SIZE
    }

    /// The bytes of the list's [`Matrix`](crate::Matrix): [`ROW_SIZE`] for each state up to the
    /// highest that a record names, as the state that an edge leaves or leads to, or that starts or
    /// accepts.
    ///
    /// ```
    /// use watch::{List, ROW_SIZE};
    ///
    /// // An accept record names state 2 and signature 7, a start record state 0.
    /// let list = List::check(b"\x02\0\0\0\0\0\0\0\x03\0\0\0\x02\0\x07\0").unwrap();
    /// assert_eq!(list.matrix_size(), 3 * ROW_SIZE);
    /// ```
    #[must_use]
    pub fn matrix_size(&self) -> usize {
        let named = |record: &[u8]| {
            let number = |at: usize| usize::from(record[at]) + 256 * usize::from(record[at + 1]);
            match record[0] {
                1 => number(4).max(number(6)),
                2 => number(6),
                _ => number(4),
            }
        };
        ROW_SIZE * (1 + self.bytes.chunks_exact(RECORD_SIZE).map(named).max().unwrap_or(0))
    }

    /// Joins the list in the first `used` bytes of a lent one with another. Later bytes stay.
    ///
    /// A pair is due under the joined list exactly when it is due under one of the two. The states
    /// of the front keep their numbers. A flow that was opened under one of the two does not go on
    /// under the joined list: open it anew.
    ///
    /// # Errors
    ///
    /// 1 to 3 of the front, and [`Refusal::ListRoom`] (28). They change nothing.
    ///
    /// ```
    /// use watch::{List, Refusal};
    ///
    /// let mut lent = [9; 65];
    /// let used = List::compile_in(b"ab", 7, &mut lent).unwrap().as_bytes().len();
    /// let mut other = [0; 40];
    /// let other = List::compile_in(b"ac", 8, &mut other).unwrap();
    /// let both = List::join_in(&other, used, &mut lent)?;
    /// assert_eq!(both.records(), 8); // the start and its loop are there once
    /// assert_eq!(lent[64], 9);
    ///
    /// assert_eq!(List::join_in(&other, used, &mut lent[..63]), Err(Refusal::ListRoom));
    /// # Ok::<(), Refusal>(())
    /// ```
    pub fn join_in(other: &List<'_>, used: usize, lent: &'a mut [u8]) -> Result<List<'a>, Refusal> {
        let joined = call!(watch_join(&mut lent, used as u64, &other.bytes));
        Refusal::verdict(joined.refusal)?;
        Ok(List { bytes: &lent[..joined.length as usize] })
    }

    /// Folds the list into the front of a lent one. Later bytes stay.
    ///
    /// States with the same past become one, and every flow tells the same pairs. The folded list
    /// is no longer than this one. A flow that was opened under this list does not go on under the
    /// folded one: open it anew.
    ///
    /// # Errors
    ///
    /// [`Refusal::ListRoom`] (28). It changes nothing.
    ///
    /// ```
    /// use watch::List;
    ///
    /// let both = List::compile_all([(b"ab".as_slice(), 7), (b"ac", 8)]).unwrap();
    /// assert_eq!(both.list().records(), 7); // what both texts begin with is there once
    /// let mut lent = [0; 56];
    /// assert_eq!(both.list().fold_in(&mut lent)?.records(), 7);
    /// # Ok::<(), watch::Refusal>(())
    /// ```
    pub fn fold_in<'b>(&self, lent: &'b mut [u8]) -> Result<List<'b>, Refusal> {
        let folded = call!(watch_fold(&self.bytes, &mut lent));
        Refusal::verdict(folded.refusal)?;
        Ok(List { bytes: &lent[..folded.length as usize] })
    }

    /// Joins two lists, in memory of its own, as [`List::join_in`] does.
    ///
    /// # Errors
    ///
    /// [`Refusal::ListRoom`] (28).
    #[cfg(feature = "std")]
    pub fn join(&self, other: &List<'_>) -> Result<Compiled, Refusal> {
        let mut bytes = std::vec![0; MOST_LIST];
        bytes[..self.bytes.len()].copy_from_slice(self.bytes);
        let length = List::join_in(other, self.bytes.len(), &mut bytes)?.bytes.len();
        Ok(Compiled::front(bytes, length))
    }

    /// Folds the list, in memory of its own, as [`List::fold_in`] does.
    #[cfg(feature = "std")]
    #[must_use]
    pub fn fold(&self) -> Compiled {
        let mut bytes = std::vec![0; self.bytes.len()];
        let length = self.fold_in(&mut bytes).expect("a folded list is no longer").bytes.len();
        Compiled::front(bytes, length)
    }
}

impl Sealed for List<'_> {}

impl Engine for List<'_> {
    type Flow = Flow;

    fn feed(
        &self,
        flow: &mut Flow,
        _split: &mut u32,
        start: u64,
        piece: &[u8],
        pairs: &mut [u32],
    ) -> Result<Fed, SplitError> {
        Fed::verdict(call!(watch_feed(&self.bytes, &mut flow.bytes, start, &piece, &mut pairs)))
    }
}

impl<'a> TryFrom<&'a [u8]> for List<'a> {
    type Error = Refusal;

    /// The list that bytes are, as [`List::check`] gives it.
    fn try_from(bytes: &'a [u8]) -> Result<List<'a>, Refusal> {
        List::check(bytes)
    }
}

impl AsRef<[u8]> for List<'_> {
    fn as_ref(&self) -> &[u8] {
        self.bytes
    }
}

impl fmt::Debug for List<'_> {
    fn fmt(&self, f: &mut fmt::Formatter<'_>) -> fmt::Result {
        write!(f, "List({} records)", self.records())
    }
}
