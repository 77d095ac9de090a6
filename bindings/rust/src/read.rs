//! A flow fed by what a reader gives.

use crate::feed::counted;
use crate::{pairs_in, Engine, Pair, Record, SplitError, ENOUGH_WORDS};
use std::boxed::Box;
use std::fmt;
use std::io::{self, Read};

/// Bytes that are read at once.
const PIECE: usize = 65_536;

/// The pairs of a flow that is fed, by any engine, what a reader gives: an iterator, which ends
/// where the reader does.
///
/// ```
/// use watch::{Flow, FlowReader, List};
///
/// let compiled = List::compile(b"moo", 7)?;
/// let list = compiled.list();
/// let mut told = Vec::new();
/// let flow = Flow::open_all(&list, |pair| told.push(pair));
/// // Any reader: a file, a socket, standard input.
/// let mut reader = FlowReader::new(&list, flow, &b"moo, moo"[..]);
/// for pair in &mut reader {
///     told.push(pair?);
/// }
/// assert_eq!(told.iter().map(|pair| pair.offset).collect::<Vec<u32>>(), [3, 8]);
/// assert_eq!(reader.flow().map(|flow| flow.offset()), Some(8));
/// # Ok::<(), Box<dyn std::error::Error>>(())
/// ```
///
/// The pairs of offset 0 are those of the opening, which comes before. The bytes that are read at
/// once are fed at once, so that a pair is told as soon as the reader has given its last byte.
///
/// An error of the reader does not end the iterator: the next call reads again. A refusal of the
/// feed ends it.
pub struct FlowReader<'e, E: Engine, R> {
    engine: &'e E,
    flow: E::Flow,
    split: u32,
    reader: R,
    piece: Box<[u8]>,
    /// The bytes of the piece that are still to be fed.
    left: core::ops::Range<usize>,
    words: [u32; ENOUGH_WORDS],
    /// The words whose pairs are still to be handed out.
    told: core::ops::Range<usize>,
    refused: Option<SplitError>,
    ended: bool,
}

impl<'e, E: Engine, R: Read> FlowReader<'e, E, R> {
    /// Feeds a flow, from where it stands, by an engine what a reader gives from here on.
    pub fn new(engine: &'e E, flow: E::Flow, reader: R) -> FlowReader<'e, E, R> {
        FlowReader {
            engine,
            flow,
            split: 0,
            reader,
            piece: std::vec![0; PIECE].into_boxed_slice(),
            left: 0..0,
            words: [0; ENOUGH_WORDS],
            told: 0..0,
            refused: None,
            ended: false,
        }
    }

    /// The flow, where every pair that it has told is handed out: only then may its record be
    /// saved. `None` where pairs wait.
    ///
    /// Bytes that have been read may wait to be fed: who goes on from a saved record reads from its
    /// offset on.
    #[must_use]
    pub fn flow(&self) -> Option<&E::Flow> {
        Some(&self.flow).filter(|_| self.told.is_empty())
    }

    /// The flow and the reader, given back. Pairs that wait are lost.
    #[must_use]
    pub fn into_parts(self) -> (E::Flow, R) {
        (self.flow, self.reader)
    }

    /// Reads the next bytes; false where there are none.
    fn read(&mut self) -> io::Result<bool> {
        loop {
            match self.reader.read(&mut self.piece) {
                Ok(count) => {
                    self.left = 0..count;
                    return Ok(count > 0);
                }
                Err(error) if error.kind() == io::ErrorKind::Interrupted => {}
                Err(error) => return Err(error),
            }
        }
    }

    /// Feeds what is left of the piece, up to its end or a pause.
    fn feed(&mut self) {
        let (start, rest) = (u64::from(self.flow.offset()), &self.piece[self.left.clone()]);
        let fed = self.engine.feed(&mut self.flow, &mut self.split, start, rest, &mut self.words);
        let (bytes, pairs) = counted(&fed);
        self.left.start += bytes;
        self.told = 0..2 * pairs;
        self.refused = fed.err();
    }
}

impl<E: Engine, R: Read> Iterator for FlowReader<'_, E, R> {
    type Item = Result<Pair, ReadError>;

    fn next(&mut self) -> Option<Result<Pair, ReadError>> {
        loop {
            if let Some(pair) = pairs_in(&self.words[self.told.clone()]).next() {
                self.told.start += 2;
                return Some(Ok(pair));
            }
            if self.ended {
                return None;
            }
            if let Some(refused) = self.refused {
                self.ended = true;
                return Some(Err(ReadError::Feed(refused)));
            }
            if !self.left.is_empty() {
                self.feed();
                continue;
            }
            match self.read() {
                Ok(more) => self.ended = !more,
                Err(error) => return Some(Err(ReadError::Read(error))),
            }
        }
    }
}

impl<E: Engine, R> fmt::Debug for FlowReader<'_, E, R> {
    fn fmt(&self, f: &mut fmt::Formatter<'_>) -> fmt::Result {
        f.debug_struct("FlowReader")
            .field("offset", &self.flow.offset())
            .field("pairs", &(self.told.len() / 2))
            .field("bytes", &self.left.len())
            .finish_non_exhaustive()
    }
}

/// Why a [`FlowReader`] gave no pair.
#[derive(Debug)]
#[non_exhaustive]
pub enum ReadError {
    /// The reader failed. The next call reads again.
    Read(io::Error),
    /// The feed was refused, or halted. The pairs before have been handed out.
    Feed(SplitError),
}

impl fmt::Display for ReadError {
    fn fmt(&self, f: &mut fmt::Formatter<'_>) -> fmt::Result {
        match self {
            ReadError::Read(error) => error.fmt(f),
            ReadError::Feed(error) => error.fmt(f),
        }
    }
}

impl std::error::Error for ReadError {
    fn source(&self) -> Option<&(dyn std::error::Error + 'static)> {
        match self {
            ReadError::Read(error) => Some(error),
            ReadError::Feed(error) => Some(error),
        }
    }
}

impl From<ReadError> for io::Error {
    /// The reader's error, or the feed's as one of bad data.
    fn from(error: ReadError) -> io::Error {
        match error {
            ReadError::Read(error) => error,
            ReadError::Feed(error) => io::Error::new(io::ErrorKind::InvalidData, error),
        }
    }
}

#[cfg(test)]
mod tests {
    use super::{FlowReader, ReadError};
    use crate::machine::{self, Machine};
    use crate::{Flow, Index, List, Pair, Refusal, Table, TableLists, SET_SIZE};
    use std::collections::VecDeque;
    use std::io::{self, Read};
    use std::vec::Vec;

    /// A reader that gives what it is told to: bytes, or an error.
    struct Given(VecDeque<Result<&'static [u8], io::ErrorKind>>);

    impl Read for Given {
        fn read(&mut self, piece: &mut [u8]) -> io::Result<usize> {
            match self.0.pop_front() {
                None => Ok(0),
                Some(Err(kind)) => Err(kind.into()),
                Some(Ok(bytes)) => {
                    piece[..bytes.len()].copy_from_slice(bytes);
                    Ok(bytes.len())
                }
            }
        }
    }

    fn given(all: impl IntoIterator<Item = Result<&'static [u8], io::ErrorKind>>) -> Given {
        Given(all.into_iter().collect())
    }

    /// A list that tells signature 9 at the opening and at every byte, by state 0.
    const EACH: &[u8] = b"\x01\x00\xFF\0\0\0\0\0\x02\0\0\0\0\0\0\0\x03\0\0\0\0\0\x09\0";

    fn offsets<E: crate::Engine, R: Read>(reader: &mut FlowReader<'_, E, R>) -> Vec<u32> {
        reader.map(|pair| pair.expect("no error").offset).collect()
    }

    #[test]
    fn every_engine_tells_the_same() {
        let list = List::check(EACH).unwrap();
        let (built, flow) = (Table::build(&list).unwrap(), Flow::open_all(&list, |_| ()));
        let table = built.table();
        let index = Index::fill(&table, std::vec![0; table.index_size()]).unwrap();
        let each: Vec<u32> = (1..=1000).collect();
        assert_eq!(offsets(&mut FlowReader::new(&list, flow.clone(), &[0; 1000][..])), each);
        assert_eq!(offsets(&mut FlowReader::new(&table, flow.clone(), &[0; 1000][..])), each);
        assert_eq!(offsets(&mut FlowReader::new(&index, flow, &[0; 1000][..])), each);
        let programs: Vec<u8> = [6, 0, 9, 0].iter().copied().chain([0; 28]).collect();
        let machine = Machine::check(&[0; 512], &programs).unwrap();
        let flow = machine::Flow::open_all(&machine, |_| ());
        assert_eq!(offsets(&mut FlowReader::new(&machine, flow, &[0; 1000][..])), each);
    }

    #[test]
    fn errors_of_the_reader() {
        let list = List::check(EACH).unwrap();
        let flow = Flow::open_all(&list, |_| ());
        let parts = [Ok(&b"ab"[..]), Err(io::ErrorKind::Interrupted), Err(io::ErrorKind::WouldBlock), Ok(b"c")];
        let mut reader = FlowReader::new(&list, flow, given(parts));
        assert!(matches!(reader.next(), Some(Ok(Pair { signature: 9, offset: 1 }))));
        assert!(reader.flow().is_none()); // the pair of offset 2 waits
        assert!(matches!(reader.next(), Some(Ok(Pair { signature: 9, offset: 2 }))));
        assert_eq!(reader.flow().map(Flow::offset), Some(2));
        assert!(
            matches!(reader.next(), Some(Err(ReadError::Read(error))) if error.kind() == io::ErrorKind::WouldBlock)
        );
        assert_eq!(offsets(&mut reader), [3]);
        assert!(reader.next().is_none());
        assert_eq!(reader.into_parts().0.offset(), 3);
    }

    #[test]
    fn refusals_of_the_feed() {
        let list = List::check(EACH).unwrap();
        let flow = Flow::open_all(&list, |_| ());
        let built = Table::build(&list).unwrap();
        let lists = TableLists { rows: &[0; SET_SIZE], ..built.lists() };
        // Rows that lead to a set that is no split: halted at the second byte.
        let table = Table::from_saved(&list, 1, lists);
        let mut reader = FlowReader::new(&table, flow.clone(), &b"xx"[..]);
        let error = reader.next().unwrap().unwrap_err();
        assert!(matches!(error, ReadError::Feed(error) if (error.refusal(), error.bytes()) == (Refusal::NoSplit, 1)));
        assert!(reader.next().is_none());
        // At the largest offset nothing fits any more.
        let mut bytes = flow.into_bytes();
        bytes[crate::OFFSET_AT..crate::RESERVED_AT].fill(255);
        let mut reader = FlowReader::new(&list, Flow::from_bytes(bytes), &b"x"[..]);
        let error = io::Error::from(reader.next().unwrap().unwrap_err());
        assert_eq!(error.kind(), io::ErrorKind::InvalidData);
        assert!(reader.next().is_none());
    }
}
