//! The refusals by name. tools/face writes the tables between the marks.

use core::fmt;

/// Why a call was refused. Each has a [`number`](Refusal::number), 1 to 22 or 24 to 28; of several
/// that apply, the lowest is given, but 17 before 16, 18 of a segment's sizes before all others, 24
/// before all others that are not of a list, and of 19 and 20 the one that stands first in the
/// text.
///
/// ```
/// use watch::{List, Refusal, MOST_LIST, RECORD_SIZE};
///
/// let refusal = List::check(b"").unwrap_err();
/// assert_eq!(refusal, Refusal::ListLength);
/// assert_eq!(refusal.number(), 1);
/// assert_eq!(refusal.to_string(), format!("the list's length is 0, over {MOST_LIST}, or no multiple of {RECORD_SIZE}"));
/// ```
#[derive(Clone, Copy, Debug, PartialEq, Eq, PartialOrd, Ord, Hash)]
#[non_exhaustive]
#[repr(u32)]
pub enum Refusal {
    // (face: variants)
    /// 1: the list's length is 0, over [`MOST_LIST`](crate::MOST_LIST), or no multiple of
    /// [`RECORD_SIZE`](crate::RECORD_SIZE).
    ListLength = 1,
    /// 2: a record of the list has another kind, a reserved byte that is not zero, a byte 3 of an
    /// edge that is over 1, low > high, a state that is not below [`STATES`](crate::STATES), or a
    /// signature that is not below [`SIGNATURES`](crate::SIGNATURES).
    ListRecord = 2,
    /// 3: the list has no start record.
    NoStart = 3,
    /// 4: the flow record is not [`FLOW_SIZE`](crate::FLOW_SIZE) bytes long; or, when it is fed,
    /// its four reserved bytes are not zero, its rows read are more than [`STATES`](crate::STATES)
    /// x offset, or its frontier has a state that no record of the list names (as an edge's from or
    /// to, a start's state or an accept's); of an automaton with bits and counters: it is not
    /// [`X_FLOW_SIZE`](crate::X_FLOW_SIZE) bytes long; or, when it is fed, its state is none of the
    /// moves, a reserved byte is not zero, or a counter is over [`X_OFF`](crate::X_OFF).
    FlowRecord = 4,
    /// 5: the piece's stated start is not the flow's offset.
    OtherStart = 5,
    /// 6: offset + piece length is over [`MOST_OFFSET`](crate::MOST_OFFSET).
    TooLong = 6,
    /// 7: the bound is not 1 to [`MOST_BOUND`](crate::MOST_BOUND).
    Bound = 7,
    /// 8: a list of the table, or its index, has the wrong length, or a class is over
    /// [`MOST_CLASS`](crate::MOST_CLASS); or the matrix has not [`ROW_SIZE`](crate::ROW_SIZE) bytes
    /// for each state up to the highest that the list names.
    TableLists = 8,
    /// 9: a split has a used slot that names no part, a used slot after an unused one, slots that
    /// do not strictly rise, more used slots than the bound, or a set that is not greater, as a
    /// string of bytes, than the one before; the split feed looks at the sets alone.
    SplitRecord = 9,
    /// 10: a row that some byte selects is not the automaton's step of its part on that byte.
    WrongRow = 10,
    /// 11: the set of a split is not the union of its parts.
    WrongUnion = 11,
    /// 12: the start set is no split.
    NoStartSplit = 12,
    /// 13: for some split and some byte, the automaton's step of the split's set is no split.
    NotClosed = 13,
    /// 14: at a byte of a split feed: the frontier is no split, or the slots taken name no part or
    /// are more than the bound; at a byte of a prepared feed: the frontier is not found among the
    /// splits, or the byte before led to a place without a whole entry.
    NoSplit = 14,
    /// 15: at opening: the pairs of offset 0 are more than pairs_len div 2.
    NoRoom = 15,
    /// 16: building: more than [`MOST_PARTS`](crate::MOST_PARTS) sets can be reached from the start
    /// set, or more than [`MOST_CLASS`](crate::MOST_CLASS) + 1 classes are needed; preparing: more
    /// than [`MOST_SPLITS`](crate::MOST_SPLITS) sets can be reached.
    TooMany = 16,
    /// 17: building: a lent list is shorter than [`LENT_CLASSES`](crate::LENT_CLASSES),
    /// [`LENT_PARTS`](crate::LENT_PARTS), [`LENT_ROWS`](crate::LENT_ROWS) or
    /// [`LENT_SPLITS`](crate::LENT_SPLITS) bytes; preparing: the lent splits are shorter than
    /// [`PREPARE_SPLITS`](crate::PREPARE_SPLITS) bytes, or the lent index than
    /// [`PREPARE_INDEX`](crate::PREPARE_INDEX).
    LentLists = 17,
    /// 18: of a segment: it has more than [`MOST_SEGMENT`](crate::MOST_SEGMENT) bytes, held_len is
    /// not [`HELD_SIZE`](crate::HELD_SIZE), held_length is over that; or it begins ahead, and
    /// another segment is held or it has more than [`HELD_SIZE`](crate::HELD_SIZE) bytes.
    Segment = 18,
    /// 19: compiling: the text does not fit; place is the first byte, counted from 0, with which no
    /// continuation fits, or the text's length where it is cut short.
    BadText = 19,
    /// 20: compiling: a seventeenth nested bracket opens, before the place of 19 or in a good text.
    TooDeep = 20,
    /// 21: compiling: the list would have more than [`STATES`](crate::STATES) states or
    /// [`MOST_RECORDS`](crate::MOST_RECORDS) records, or be longer than the lent one.
    TooBig = 21,
    /// 22: of a certificate: not a whole number of records, or over
    /// [`MOST_NOTES`](crate::MOST_NOTES) of them; a field is bad, a configuration is there twice,
    /// the start configuration is not there with the start set, a byte leads to no record with the
    /// list's step of the set, or what is alerted then or at opening is not what that set accepts.
    Certificate = 22,
    /// 24: of an automaton with bits and counters: a list has a wrong length, or the two are of
    /// other numbers of states; a target is no state; a record has another kind, a bit that is not
    /// below [`X_BITS`](crate::X_BITS), a counter that is not below
    /// [`X_COUNTERS`](crate::X_COUNTERS), a signature that is not below
    /// [`SIGNATURES`](crate::SIGNATURES), or a field that is not used and not 0. Every program is
    /// tested, reached or not.
    Machine = 24,
    /// 25: of a question why: the offset lies before start or behind start + piece length; or, with
    /// n = offset - start, run_len is under n + 1 or work_len under [`SET_SIZE`](crate::SET_SIZE) x
    /// (n + 1).
    Place = 25,
    /// 26: of a question why: the pair is not due there, or the state not in the frontier; of an
    /// edge: no record is one.
    NotDue = 26,
    /// 27: joining: the list check refuses the other list.
    OtherList = 27,
    /// 28: joining: `used` is over the lent list's length, or the joined list is, or that has more
    /// than [`MOST_RECORDS`](crate::MOST_RECORDS) records or a state that is not below
    /// [`STATES`](crate::STATES); folding: the lent list is shorter than the folded one.
    ListRoom = 28,
    // (face: end)
}

impl Refusal {
    /// All refusals, by number.
    pub const ALL: &'static [Refusal] = &[
        // (face: all)
        Refusal::ListLength,
        Refusal::ListRecord,
        Refusal::NoStart,
        Refusal::FlowRecord,
        Refusal::OtherStart,
        Refusal::TooLong,
        Refusal::Bound,
        Refusal::TableLists,
        Refusal::SplitRecord,
        Refusal::WrongRow,
        Refusal::WrongUnion,
        Refusal::NoStartSplit,
        Refusal::NotClosed,
        Refusal::NoSplit,
        Refusal::NoRoom,
        Refusal::TooMany,
        Refusal::LentLists,
        Refusal::Segment,
        Refusal::BadText,
        Refusal::TooDeep,
        Refusal::TooBig,
        Refusal::Certificate,
        Refusal::Machine,
        Refusal::Place,
        Refusal::NotDue,
        Refusal::OtherList,
        Refusal::ListRoom,
        // (face: end)
    ];

    /// The refusal's number, 1 to 22 or 24 to 28.
    #[must_use]
    pub const fn number(self) -> u32 {
        self as u32
    }

    /// The refusal with a number; `None` for 0 and for a number that no refusal has.
    ///
    /// ```
    /// use watch::Refusal;
    ///
    /// assert_eq!(Refusal::from_number(5), Some(Refusal::OtherStart));
    /// assert_eq!(Refusal::from_number(0), None);
    /// ```
    #[must_use]
    pub fn from_number(number: u32) -> Option<Refusal> {
        Refusal::ALL.iter().copied().find(|refusal| refusal.number() == number)
    }

    /// What a function of the archive answers, as a result.
    pub(crate) fn verdict(number: u32) -> Result<(), Refusal> {
        match number {
            0 => Ok(()),
            _ => Err(Refusal::from_number(number).expect("the archive answers the number of a refusal")),
        }
    }
}

impl fmt::Display for Refusal {
    #[rustfmt::skip]
    fn fmt(&self, f: &mut fmt::Formatter<'_>) -> fmt::Result {
        f.write_str(match self {
            // (face: texts)
            Refusal::ListLength => "the list's length is 0, over 65536, or no multiple of 8",
            Refusal::ListRecord => {
                "a record of the list has another kind, a reserved byte that is not zero, a byte \
                 3 of an edge that is over 1, low > high, a state that is not below 1024, or a \
                 signature that is not below 256"
            }
            Refusal::NoStart => "the list has no start record",
            Refusal::FlowRecord => {
                "the flow record is not 144 bytes long; or, when it is fed, its four reserved \
                 bytes are not zero, its rows read are more than 1024 x offset, or its frontier \
                 has a state that no record of the list names (as an edge's from or to, a start's \
                 state or an accept's); of an automaton with bits and counters: it is not 80 \
                 bytes long; or, when it is fed, its state is none of the moves, a reserved byte \
                 is not zero, or a counter is over 65536"
            }
            Refusal::OtherStart => "the piece's stated start is not the flow's offset",
            Refusal::TooLong => "offset + piece length is over 4294967295",
            Refusal::Bound => "the bound is not 1 to 4",
            Refusal::TableLists => {
                "a list of the table, or its index, has the wrong length, or a class is over 63; \
                 or the matrix has not 32768 bytes for each state up to the highest that the list \
                 names"
            }
            Refusal::SplitRecord => {
                "a split has a used slot that names no part, a used slot after an unused one, \
                 slots that do not strictly rise, more used slots than the bound, or a set that \
                 is not greater, as a string of bytes, than the one before; the split feed looks \
                 at the sets alone"
            }
            Refusal::WrongRow => {
                "a row that some byte selects is not the automaton's step of its part on that \
                 byte"
            }
            Refusal::WrongUnion => "the set of a split is not the union of its parts",
            Refusal::NoStartSplit => "the start set is no split",
            Refusal::NotClosed => {
                "for some split and some byte, the automaton's step of the split's set is no \
                 split"
            }
            Refusal::NoSplit => {
                "at a byte of a split feed: the frontier is no split, or the slots taken name no \
                 part or are more than the bound; at a byte of a prepared feed: the frontier is \
                 not found among the splits, or the byte before led to a place without a whole \
                 entry"
            }
            Refusal::NoRoom => "at opening: the pairs of offset 0 are more than pairs_len div 2",
            Refusal::TooMany => {
                "building: more than 1024 sets can be reached from the start set, or more than 63 \
                 + 1 classes are needed; preparing: more than 4096 sets can be reached"
            }
            Refusal::LentLists => {
                "building: a lent list is shorter than 256, 131072, 8388608 or 139264 bytes; \
                 preparing: the lent splits are shorter than 557056 bytes, or the lent index than \
                 4456576"
            }
            Refusal::Segment => {
                "of a segment: it has more than 65535 bytes, held_len is not 4096, held_length is \
                 over that; or it begins ahead, and another segment is held or it has more than \
                 4096 bytes"
            }
            Refusal::BadText => {
                "compiling: the text does not fit; place is the first byte, counted from 0, with \
                 which no continuation fits, or the text's length where it is cut short"
            }
            Refusal::TooDeep => {
                "compiling: a seventeenth nested bracket opens, before the place of 19 or in a \
                 good text"
            }
            Refusal::TooBig => {
                "compiling: the list would have more than 1024 states or 8192 records, or be \
                 longer than the lent one"
            }
            Refusal::Certificate => {
                "of a certificate: not a whole number of records, or over 4096 of them; a field \
                 is bad, a configuration is there twice, the start configuration is not there \
                 with the start set, a byte leads to no record with the list's step of the set, \
                 or what is alerted then or at opening is not what that set accepts"
            }
            Refusal::Machine => {
                "of an automaton with bits and counters: a list has a wrong length, or the two \
                 are of other numbers of states; a target is no state; a record has another kind, \
                 a bit that is not below 64, a counter that is not below 16, a signature that is \
                 not below 256, or a field that is not used and not 0. Every program is tested, \
                 reached or not"
            }
            Refusal::Place => {
                "of a question why: the offset lies before start or behind start + piece length; \
                 or, with n = offset - start, run_len is under n + 1 or work_len under 128 x (n + \
                 1)"
            }
            Refusal::NotDue => {
                "of a question why: the pair is not due there, or the state not in the frontier; \
                 of an edge: no record is one"
            }
            Refusal::OtherList => "joining: the list check refuses the other list",
            Refusal::ListRoom => {
                "joining: `used` is over the lent list's length, or the joined list is, or that \
                 has more than 8192 records or a state that is not below 1024; folding: the lent \
                 list is shorter than the folded one"
            }
            // (face: end)
        })
    }
}

#[cfg(feature = "std")]
impl std::error::Error for Refusal {}
