//! Signature texts: one compiled into a list, and many into one list.

use crate::call::call;
use crate::{assert_version, List, Refusal};
use core::fmt;

#[cfg(feature = "std")]
use crate::MOST_LIST;

impl<'a> List<'a> {
    /// Compiles a signature text into the front of a lent list. Later bytes stay.
    ///
    /// The pairs of a flow under the list are (signature, k) for each k such that the first k bytes
    /// end in a match of the text; with `^` before the text, such that they are one. It needs no
    /// check: it is proved that it would pass. [Texts](crate#signature-texts) says what a text may
    /// be.
    ///
    /// # Errors
    ///
    /// A [`CompileError`], which changes nothing.
    ///
    /// # Panics
    ///
    /// Where the linked archive has another version of the face than this crate is written for,
    /// [`VERSION`](crate::VERSION).
    ///
    /// ```
    /// use watch::{CompileError, List};
    ///
    /// let mut lent = [9; 41];
    /// let list = List::compile_in(b"ab", 7, &mut lent)?;
    /// assert_eq!(list.records(), 5); // the loop that lets it begin anywhere, 'a', 'b', a start and an accept
    /// assert_eq!(lent[40], 9);
    ///
    /// assert_eq!(List::compile_in(b"ab", 7, &mut lent[..39]), Err(CompileError::TooBig));
    /// # Ok::<(), CompileError>(())
    /// ```
    pub fn compile_in(text: &[u8], signature: u8, lent: &'a mut [u8]) -> Result<List<'a>, CompileError> {
        assert_version();
        let compiled = call!(watch_compile(&text, signature, &mut lent));
        match Refusal::verdict(compiled.refusal) {
            Ok(()) => Ok(List { bytes: &lent[..compiled.length as usize] }),
            Err(Refusal::BadText) => Err(CompileError::BadText { place: compiled.place as usize }),
            Err(Refusal::TooDeep) => Err(CompileError::TooDeep),
            Err(_) => Err(CompileError::TooBig),
        }
    }

    /// Compiles a signature text, in memory of its own, as [`List::compile_in`] does.
    ///
    /// # Errors
    ///
    /// A [`CompileError`].
    ///
    /// ```
    /// use watch::{Flow, List};
    ///
    /// let compiled = List::compile(br"feed 9\n.*feed 9\n", 9)?;
    /// let list = compiled.list();
    /// let mut told = Vec::new();
    /// let mut flow = Flow::open_all(&list, |pair| told.push(pair.to_string()));
    /// flow.feed_all(&list, 0, b"feed 9\ndone 9\nfeed 9\n", |pair| told.push(pair.to_string())).unwrap();
    /// assert_eq!(told, ["9 21"]);
    ///
    /// // A count that is too large, and its first place where no continuation fits.
    /// let error = List::compile(b"a{1,301}", 9).unwrap_err();
    /// assert_eq!((error.refusal().number(), error.place()), (19, Some(6)));
    /// # Ok::<(), watch::CompileError>(())
    /// ```
    #[cfg(feature = "std")]
    pub fn compile(text: &[u8], signature: u8) -> Result<Compiled, CompileError> {
        let mut bytes = std::vec![0; MOST_LIST];
        let length = List::compile_in(text, signature, &mut bytes)?.bytes.len();
        Ok(Compiled::front(bytes, length))
    }

    /// Compiles texts with their signatures, one by one, joins the lists, and folds after each
    /// join: (h, k) is told exactly when some text has signature h and the first k bytes end in a
    /// match of it.
    ///
    /// # Errors
    ///
    /// [`CollectError::Nothing`] where there is no text; else the first text that is refused, by
    /// itself or together with those before it.
    ///
    /// ```
    /// use watch::{CollectError, Flow, List};
    ///
    /// let compiled = List::compile_all([(b"feed".as_slice(), 1), (b"food", 2), (b"^f", 3)])?;
    /// let list = compiled.list();
    /// let mut told = Vec::new();
    /// let mut flow = Flow::open_all(&list, |pair| told.push(pair.to_string()));
    /// flow.feed_all(&list, 0, b"feed food", |pair| told.push(pair.to_string())).unwrap();
    /// assert_eq!(told, ["3 1", "1 4", "2 9"]);
    ///
    /// assert_eq!(List::compile_all([]), Err(CollectError::Nothing));
    /// # Ok::<(), CollectError>(())
    /// ```
    #[cfg(feature = "std")]
    pub fn compile_all<'t>(texts: impl IntoIterator<Item = (&'t [u8], u8)>) -> Result<Compiled, CollectError> {
        let mut all: Option<Compiled> = None;
        for (index, (text, signature)) in texts.into_iter().enumerate() {
            let one = List::compile(text, signature).map_err(|error| CollectError::Text { index, error })?;
            all = Some(match all {
                None => one,
                Some(front) => {
                    front.list().join(&one.list()).map_err(|_| CollectError::Together { index })?.list().fold()
                }
            });
        }
        all.ok_or(CollectError::Nothing)
    }
}

/// A list that was compiled, joined or folded, in memory of its own.
#[cfg(feature = "std")]
#[derive(Clone, PartialEq, Eq)]
pub struct Compiled {
    bytes: std::vec::Vec<u8>,
}

#[cfg(feature = "std")]
impl Compiled {
    /// The list that the archive wrote into the front of a vector.
    pub(crate) fn front(mut bytes: std::vec::Vec<u8>, length: usize) -> Compiled {
        bytes.truncate(length);
        bytes.shrink_to_fit();
        Compiled { bytes }
    }

    /// The list. It needs no check: it is proved that it would pass.
    #[must_use]
    pub fn list(&self) -> List<'_> {
        List { bytes: &self.bytes }
    }

    /// The list's bytes.
    #[must_use]
    pub fn as_bytes(&self) -> &[u8] {
        &self.bytes
    }

    /// The list's bytes.
    #[must_use]
    pub fn into_bytes(self) -> std::vec::Vec<u8> {
        self.bytes
    }
}

#[cfg(feature = "std")]
impl fmt::Debug for Compiled {
    fn fmt(&self, f: &mut fmt::Formatter<'_>) -> fmt::Result {
        write!(f, "Compiled({:?})", self.list())
    }
}

/// Why a text was not compiled. The lent list has not changed.
#[derive(Clone, Copy, Debug, PartialEq, Eq, Hash)]
#[non_exhaustive]
pub enum CompileError {
    /// Refusal 19.
    #[non_exhaustive]
    BadText {
        /// The first place where no continuation fits, counted from 0: the bytes before it can
        /// still go on to a good text, and with the byte at it they can't. Where it is the text's
        /// length, the text is cut short.
        place: usize,
    },
    /// Refusal 20: a seventeenth nested bracket opens before such a place, or at all in a good
    /// text.
    TooDeep,
    /// Refusal 21: the automaton has more states or records than a list may have, or more records
    /// than the lent list has room for.
    TooBig,
}

impl CompileError {
    /// The refusal.
    #[must_use]
    pub fn refusal(&self) -> Refusal {
        match self {
            CompileError::BadText { .. } => Refusal::BadText,
            CompileError::TooDeep => Refusal::TooDeep,
            CompileError::TooBig => Refusal::TooBig,
        }
    }

    /// The place, of refusal 19.
    #[must_use]
    pub fn place(&self) -> Option<usize> {
        match self {
            CompileError::BadText { place } => Some(*place),
            CompileError::TooDeep | CompileError::TooBig => None,
        }
    }
}

impl fmt::Display for CompileError {
    fn fmt(&self, f: &mut fmt::Formatter<'_>) -> fmt::Result {
        self.refusal().fmt(f)?;
        self.place().map_or(Ok(()), |place| write!(f, " (place {place})"))
    }
}

#[cfg(feature = "std")]
impl std::error::Error for CompileError {}

impl From<CompileError> for Refusal {
    /// The refusal, without its place.
    fn from(error: CompileError) -> Refusal {
        error.refusal()
    }
}

/// Why texts were not compiled into one list.
#[cfg(feature = "std")]
#[derive(Clone, Copy, Debug, PartialEq, Eq, Hash)]
#[non_exhaustive]
pub enum CollectError {
    /// There is no text.
    Nothing,
    /// A text was refused by itself.
    #[non_exhaustive]
    Text {
        /// Which, counted from 0.
        index: usize,
        /// Why.
        error: CompileError,
    },
    /// Refusal 28: together with those before it a text needs more states or records than a list
    /// may have.
    #[non_exhaustive]
    Together {
        /// Which, counted from 0.
        index: usize,
    },
}

#[cfg(feature = "std")]
impl fmt::Display for CollectError {
    fn fmt(&self, f: &mut fmt::Formatter<'_>) -> fmt::Result {
        match self {
            CollectError::Nothing => f.write_str("there is no text"),
            CollectError::Text { index, error } => write!(f, "text {index}: {error}"),
            CollectError::Together { index } => write!(f, "text {index}: {}", Refusal::ListRoom),
        }
    }
}

#[cfg(feature = "std")]
impl std::error::Error for CollectError {
    fn source(&self) -> Option<&(dyn std::error::Error + 'static)> {
        match self {
            CollectError::Text { error, .. } => Some(error),
            CollectError::Nothing | CollectError::Together { .. } => None,
        }
    }
}
