//! The bit matrix of a list: its filler and its feed.

use crate::call::call;
use crate::feed::sealed::Sealed;
use crate::{Engine, Fed, FedAll, Flow, List, Pair, Refusal, SplitError, ROW_SIZE};
use core::fmt;

/// A bit matrix with the list that it is for: a set of [`SET_SIZE`](crate::SET_SIZE) bytes for each
/// state up to the highest that the list names and each byte, that of state s and byte c at index
/// s × [`BYTE_VALUES`](crate::BYTE_VALUES) + c.
///
/// It owns its bytes, or borrows them, as `B` does: `Vec<u8>`, `Box<[u8]>`, `&[u8]`.
#[derive(Clone, Copy, PartialEq, Eq)]
pub struct Matrix<'a, B> {
    list: List<'a>,
    bytes: B,
}

impl<'a, B: AsRef<[u8]> + AsMut<[u8]>> Matrix<'a, B> {
    /// Writes the matrix of a list over a buffer, which has [`List::matrix_size`] bytes.
    ///
    /// # Errors
    ///
    /// [`Refusal::TableLists`] (8) where it has more or fewer; they stay as they are.
    ///
    /// ```
    /// use watch::{List, Matrix, Refusal, ROW_SIZE, SET_SIZE};
    ///
    /// // An edge on 'a' from state 0 to state 0, which starts.
    /// let bytes = *b"\x01aa\0\0\0\0\0\x02\0\0\0\0\0\0\0";
    /// let list = List::check(&bytes)?;
    /// let matrix = Matrix::fill(&list, [9; ROW_SIZE])?;
    /// let a = usize::from(b'a') * SET_SIZE;
    /// assert_eq!(matrix.as_bytes()[a..a + 2], [1, 0]);
    /// assert_eq!(matrix.as_bytes().iter().filter(|&&byte| byte != 0).count(), 1);
    ///
    /// let mut long = [9; ROW_SIZE + 1];
    /// assert_eq!(Matrix::fill(&list, &mut long[..]).err(), Some(Refusal::TableLists));
    /// assert_eq!(long, [9; ROW_SIZE + 1]);
    /// # Ok::<(), Refusal>(())
    /// ```
    pub fn fill(list: &List<'a>, mut bytes: B) -> Result<Matrix<'a, B>, Refusal> {
        Refusal::verdict(call!(watch_fill_matrix(&list.bytes, &mut bytes.as_mut())))?;
        Ok(Matrix { list: *list, bytes })
    }
}

impl<'a, B: AsRef<[u8]>> Matrix<'a, B> {
    /// A matrix that was filled before and saved. Nothing is unsafe about a bad one: a feed refuses
    /// another length (8), and runs what is stored as it stands.
    #[must_use]
    pub fn from_saved(list: &List<'a>, bytes: B) -> Matrix<'a, B> {
        Matrix { list: *list, bytes }
    }

    /// The list that the matrix is for.
    #[must_use]
    pub fn list(&self) -> List<'a> {
        self.list
    }

    /// The matrix's bytes.
    #[must_use]
    pub fn as_bytes(&self) -> &[u8] {
        self.bytes.as_ref()
    }

    /// What holds the bytes, given back.
    #[must_use]
    pub fn into_bytes(self) -> B {
        self.bytes
    }
}

impl<B> Sealed for Matrix<'_, B> {}

impl<B: AsRef<[u8]>> Engine for Matrix<'_, B> {
    type Flow = Flow;

    fn feed(
        &self,
        flow: &mut Flow,
        _split: &mut u32,
        start: u64,
        piece: &[u8],
        pairs: &mut [u32],
    ) -> Result<Fed, SplitError> {
        let (list, matrix) = (self.list.bytes, self.bytes.as_ref());
        Fed::verdict(call!(watch_matrix_feed(&list, &matrix, &mut flow.bytes, start, &piece, &mut pairs)))
    }
}

impl<B: AsRef<[u8]>> fmt::Debug for Matrix<'_, B> {
    fn fmt(&self, f: &mut fmt::Formatter<'_>) -> fmt::Result {
        write!(f, "Matrix({} states)", self.as_bytes().len() / ROW_SIZE)
    }
}

impl Flow {
    /// The matrix feed of a piece that begins at offset `start` of the flow: as
    /// [`feed`](Flow::feed), but each byte's new frontier is the union of the stored sets of its
    /// states. With a matrix that [`Matrix::fill`] wrote it does in every way what the plain feed
    /// of the list does.
    ///
    /// # Errors
    ///
    /// Those of [`feed`](Flow::feed), and [`Refusal::TableLists`] (8) for a matrix of another
    /// length. They change nothing.
    ///
    /// ```
    /// # use watch::{Flow, List, Matrix, Refusal};
    /// # let bytes = *b"\x01\x00\xFF\0\0\0\0\0\x01aa\0\0\0\x01\0\x01bb\0\x01\0\x02\0\x02\0\0\0\0\0\0\0\x03\0\0\0\x02\0\x07\0";
    /// let list = List::check(&bytes)?; // signature 7 after any "ab"
    /// let matrix = Matrix::fill(&list, vec![0; list.matrix_size()])?;
    /// let mut words = [0; 4];
    /// let mut flow = Flow::open(&list, &mut words)?.flow;
    /// let fed = flow.matrix_feed(&matrix, 0, b"abab", &mut words)?;
    /// assert_eq!((fed.all, words, flow.rows_read()), (true, [7, 2, 7, 4], 7));
    ///
    /// // A byte is missing: refused, and the record stays.
    /// let short = Matrix::from_saved(&list, &matrix.as_bytes()[1..]);
    /// assert_eq!(flow.matrix_feed(&short, 4, b"ab", &mut words), Err(Refusal::TableLists));
    /// assert_eq!(flow.offset(), 4);
    /// # Ok::<(), Refusal>(())
    /// ```
    pub fn matrix_feed<B: AsRef<[u8]>>(
        &mut self,
        matrix: &Matrix<'_, B>,
        start: u64,
        piece: &[u8],
        pairs: &mut [u32],
    ) -> Result<Fed, Refusal> {
        matrix.feed(self, &mut 0, start, piece, pairs).map_err(|error| error.refusal())
    }

    /// The matrix feed of a whole piece that begins at offset `start` of the flow, as
    /// [`feed_all`](Flow::feed_all) is the plain one.
    ///
    /// # Errors
    ///
    /// Those of [`matrix_feed`](Flow::matrix_feed), before the first byte.
    ///
    /// ```
    /// # use watch::{Flow, List, Matrix, Refusal};
    /// # let bytes = *b"\x01\x00\xFF\0\0\0\0\0\x02\0\0\0\0\0\0\0\x03\0\0\0\0\0\x09\0";
    /// # let list = List::check(&bytes)?;
    /// // Signature 9 at opening and at every byte, by state 0:
    /// let matrix = Matrix::fill(&list, vec![0; list.matrix_size()])?;
    /// let mut told = 0;
    /// let mut flow = Flow::open_all(&list, |_| told += 1);
    /// let fed = flow.matrix_feed_all(&matrix, 0, &[0; 1000], |_| told += 1)?;
    /// assert_eq!((fed.bytes, fed.pairs, told), (1000, 1000, 1001));
    /// # Ok::<(), Refusal>(())
    /// ```
    pub fn matrix_feed_all<B: AsRef<[u8]>>(
        &mut self,
        matrix: &Matrix<'_, B>,
        start: u64,
        piece: &[u8],
        told: impl FnMut(Pair),
    ) -> Result<FedAll, Refusal> {
        matrix.feed_all(self, &mut 0, start, piece, told).map_err(|error| error.refusal())
    }
}
