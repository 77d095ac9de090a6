//! The worked examples of the rules, through the safe face, and on the ordinary matcher that the random tests compare with.

mod common;

use common::ordinary;

use ordinary::Automaton;
use watch::{Fed, Flow, List, Pair, Refusal, SplitError, Table, TableLists};
use watch::{
    BYTE_VALUES, ENOUGH_WORDS, FLOW_SIZE, MOST_OFFSET, MOST_RECORDS, OFFSET_AT, RECORD_SIZE, RESERVED_AT, ROWS_AT,
    SET_SIZE, SIGNATURES, SLOTS, STATES, UNUSED,
};

/// Signature 7 after any "ab".
const L: [u8; 5 * RECORD_SIZE] = [
    1, 0x00, 0xFF, 0, 0, 0, 0, 0, //
    1, 0x61, 0x61, 0, 0, 0, 1, 0, //
    1, 0x62, 0x62, 0, 1, 0, 2, 0, //
    2, 0, 0, 0, 0, 0, 0, 0, //
    3, 0, 0, 0, 2, 0, 7, 0,
];

/// What a feed answers, to be compared: bytes, pairs and whether that was all.
fn answer(fed: Fed) -> (usize, usize, bool) {
    (fed.bytes, fed.pairs, fed.all)
}

/// What a split feed that halted answers: refusal, bytes and pairs.
fn halt(fed: Result<Fed, SplitError>) -> (u32, usize, usize) {
    let error = fed.unwrap_err();
    (error.refusal().number(), error.bytes(), error.pairs())
}

/// The record of L with a number, from 0 on.
fn record(i: usize) -> &'static [u8] {
    &L[RECORD_SIZE * i..RECORD_SIZE * (i + 1)]
}

/// A list of one start record.
fn start(state: usize) -> Vec<u8> {
    let mut list = vec![2, 0, 0, 0, 0, 0];
    list.extend((state as u16).to_le_bytes());
    list
}

fn list() -> List<'static> {
    List::check(&L).unwrap()
}

/// A flow of L. No start state accepts, so no room is needed.
fn opened() -> Flow {
    Flow::open(&list(), &mut []).unwrap().flow
}

fn set(states: &[u16]) -> Vec<u8> {
    ordinary::bytes_of(&states.iter().copied().collect()).to_vec()
}

fn split(states: &[u16], slots: [u16; SLOTS]) -> Vec<u8> {
    let mut record = set(states);
    slots.iter().for_each(|slot| record.extend(slot.to_le_bytes()));
    record
}

const NO: u16 = UNUSED;

/// The four lists of the table T.
struct T {
    classes: Vec<u8>,
    parts: Vec<u8>,
    rows: Vec<u8>,
    splits: Vec<Vec<u8>>,
}

impl T {
    fn new() -> T {
        let mut classes = vec![0; BYTE_VALUES];
        classes[usize::from(b'a')] = 1;
        classes[usize::from(b'b')] = 2;
        T {
            classes,
            parts: [set(&[0]), set(&[1]), set(&[2])].concat(),
            rows: [
                [set(&[0]), set(&[0, 1]), set(&[0])].concat(),
                [set(&[]), set(&[]), set(&[2])].concat(),
                [set(&[]), set(&[]), set(&[])].concat(),
            ]
            .concat(),
            splits: vec![split(&[0], [0, NO, NO, NO]), split(&[0, 1], [0, 1, NO, NO]), split(&[0, 2], [0, 2, NO, NO])],
        }
    }

    fn without(mut self, i: usize) -> T {
        self.splits.remove(i);
        self
    }

    /// Checks the table through the safe face and on the ordinary matcher; hands it on unchecked.
    fn check(&self, bound: u64, then: impl FnOnce(Result<Table, Refusal>, Table)) {
        let splits = self.splits.concat();
        let lists = TableLists { classes: &self.classes, parts: &self.parts, rows: &self.rows, splits: &splits };
        let checked = Table::check(&list(), bound, lists);
        let read = ordinary::Table::read(&self.classes, &self.parts, &self.rows, &splits);
        let refusal = ordinary::check_table(&Automaton::read(&L), bound, &read);
        assert_eq!(checked.err().map_or(0, Refusal::number), refusal);
        then(checked, Table::from_saved(&list(), bound, lists));
    }
}

/// L with state 0 accepting 5, 3 and 5 again.
fn at_once() -> Vec<u8> {
    let accepts = [5, 3, 5].iter().flat_map(|&signature| [3, 0, 0, 0, 0, 0, signature, 0]);
    L.iter().copied().chain(accepts).collect()
}

#[test]
fn a_start_state_that_accepts_is_told_at_once() {
    let bytes = at_once();
    let list = List::check(&bytes).unwrap();
    let mut words = [9; 5];
    let begun = Flow::open(&list, &mut words).unwrap();
    assert_eq!((begun.pairs, words), (2, [3, 0, 5, 0, 9]));
    assert_eq!(begun.flow, opened());
    let told: Vec<String> = begun.told(&words).map(|pair| pair.to_string()).collect();
    assert_eq!(told, ["3 0", "5 0"]);
    // Opened again it is a new flow, and tells again.
    let mut flow = begun.flow;
    assert!(flow.feed(&list, 0, b"ab", &mut [0; ENOUGH_WORDS]).unwrap().all);
    assert_eq!((Flow::open(&list, &mut words[1..]).unwrap().pairs, words), (2, [3, 3, 0, 5, 0]));
}

#[test]
fn an_opening_without_room_changes_nothing() {
    use watch::raw;
    let bytes = at_once();
    let (mut record, mut words) = ([7; FLOW_SIZE], [9; 4]);
    // SAFETY: each pointer and length is that of a slice, and the record and the words are this function's own.
    let mut open = |length: usize, room: usize, record: &mut [u8; FLOW_SIZE]| unsafe {
        let at = words.as_mut_ptr();
        let opened = raw::watch_open(bytes.as_ptr(), bytes.len(), record.as_mut_ptr(), length, at, room);
        (opened.refusal, opened.pairs, words)
    };
    assert_eq!(open(FLOW_SIZE, 3, &mut record), (15, 0, [9; 4]));
    assert_eq!(open(FLOW_SIZE - 1, 0, &mut record), (4, 0, [9; 4]));
    assert_eq!(record, [7; FLOW_SIZE]);
    assert_eq!(open(FLOW_SIZE, 4, &mut record), (0, 2, [3, 0, 5, 0]));
    assert_eq!(&record, opened().as_bytes());
}

#[test]
fn plain_abab() {
    let mut flow = opened();
    let mut words = [0; ENOUGH_WORDS];
    let fed = flow.feed(&list(), 0, b"abab", &mut words).unwrap();
    assert_eq!(answer(fed), (4, 2, true));
    assert_eq!(words[..5], [7, 2, 7, 4, 0]);
    assert_eq!(flow.rows_read(), 7);
    let told: Vec<String> = fed.told(&words).map(|pair| pair.to_string()).collect();
    assert_eq!(told, ["7 2", "7 4"]);
}

#[test]
fn plain_aba_leaves_this_record() {
    let mut flow = opened();
    assert!(flow.feed(&list(), 0, b"aba", &mut [0; ENOUGH_WORDS]).unwrap().all);
    let mut record = [0; FLOW_SIZE];
    record[0] = 3;
    record[OFFSET_AT] = 3;
    record[ROWS_AT] = 5;
    assert_eq!(flow.as_bytes(), &record);
    assert_eq!(flow.frontier().collect::<Vec<u16>>(), [0, 1]);
    assert_eq!(format!("{flow:?}"), "Flow { offset: 3, rows_read: 5, frontier: [0, 1] }");
    assert_eq!(Flow::try_from(&record[..]), Ok(flow));
    assert_eq!(Flow::try_from(&record[1..]), Err(Refusal::FlowRecord));
}

#[test]
fn a_cut_changes_nothing() {
    let mut flow = opened();
    let mut words = [0; ENOUGH_WORDS];
    assert_eq!(flow.feed(&list(), 0, b"a", &mut words).unwrap().pairs, 0);
    let before = flow.clone();
    assert_eq!(flow.feed(&list(), 0, b"bab", &mut words), Err(Refusal::OtherStart));
    assert_eq!(flow, before);
    let fed = flow.feed(&list(), 1, b"bab", &mut words).unwrap();
    assert_eq!(fed.told(&words).collect::<Vec<Pair>>(), [2, 4].map(|offset| Pair { signature: 7, offset }));
}

#[test]
fn room() {
    for (words, bytes, pairs) in [(0, 1, 0), (1, 1, 0), (2, 3, 1), (3, 3, 1), (4, 4, 2)] {
        let mut buffer = vec![99; words];
        let fed = opened().feed(&list(), 0, b"abab", &mut buffer).unwrap();
        assert_eq!(answer(fed), (bytes, pairs, bytes == 4));
        assert!(buffer[2 * pairs..].iter().all(|&word| word == 99));
    }
    let fed = opened().feed(&list(), 0, b"", &mut []).unwrap();
    assert_eq!(answer(fed), (0, 0, true));
}

#[test]
fn the_last_offset() {
    let mut record = *opened().as_bytes();
    record[OFFSET_AT..RESERVED_AT].fill(255);
    let mut flow = Flow::from_bytes(record);
    assert_eq!(answer(flow.feed(&list(), MOST_OFFSET, b"", &mut []).unwrap()), (0, 0, true));
    assert_eq!(flow.feed(&list(), MOST_OFFSET, b"a", &mut []), Err(Refusal::TooLong));
    record[OFFSET_AT] = 254;
    let mut flow = Flow::from_bytes(record);
    assert!(flow.feed(&list(), MOST_OFFSET - 1, b"a", &mut []).unwrap().all);
    assert_eq!(u64::from(flow.offset()), MOST_OFFSET);
}

#[test]
fn lists() {
    assert_eq!(List::check(&[record(0), record(1), record(2), record(4)].concat()), Err(Refusal::NoStart));
    let mut long = record(0).repeat(MOST_RECORDS - 1);
    long.extend_from_slice(record(3));
    assert_eq!(List::check(&long).unwrap().records(), MOST_RECORDS);
    long.extend_from_slice(record(0));
    assert_eq!(List::check(&long), Err(Refusal::ListLength));
    assert!(List::check(&start(STATES - 1)).is_ok());
    assert_eq!(List::try_from(&L[..]), Ok(list()));
    assert_eq!(list().as_ref(), &L[..]);
    assert_eq!(List::try_from(&L[1..]), Err(Refusal::ListLength));
    assert_eq!(List::check(&start(STATES)), Err(Refusal::ListRecord));
    for (signature, good) in [(SIGNATURES - 1, true), (SIGNATURES, false)] {
        let mut list = start(STATES - 1);
        list.extend([3, 0, 0, 0]);
        list.extend((STATES as u16 - 1).to_le_bytes());
        list.extend((signature as u16).to_le_bytes());
        assert_eq!(List::check(&list).is_ok(), good);
    }
}

#[test]
fn the_table() {
    T::new().check(2, |checked, table| assert_eq!(checked, Ok(table)));
    T::new().check(1, |checked, _| assert_eq!(checked, Err(Refusal::SplitRecord)));
    T::new().without(2).check(2, |checked, _| assert_eq!(checked, Err(Refusal::NotClosed)));
    T::new().without(0).check(2, |checked, _| assert_eq!(checked, Err(Refusal::NoStartSplit)));
}

/// T in sets of another size: each set's first bytes, or zeros behind them.
fn in_sets_of(size: usize) -> T {
    let cut = |sets: &[u8]| -> Vec<u8> {
        sets.chunks(SET_SIZE).flat_map(|set| (0..size).map(|i| set.get(i).copied().unwrap_or(0))).collect()
    };
    let T { classes, parts, rows, splits } = T::new();
    let splits = splits.iter().map(|split| [cut(&split[..SET_SIZE]), split[SET_SIZE..].to_vec()].concat()).collect();
    T { classes, parts: cut(&parts), rows: cut(&rows), splits }
}

#[test]
fn sets_of_another_size() {
    in_sets_of(SET_SIZE).check(2, |checked, table| assert_eq!(checked, Ok(table)));
    // 32 bytes are the sets of 256 states.
    for size in [1, 32, SET_SIZE - 1, SET_SIZE + 1, 2 * SET_SIZE] {
        in_sets_of(size).check(2, |checked, table| {
            assert_eq!(checked, Err(Refusal::TableLists));
            let fed = opened().split_feed(&table, 0, b"abab", &mut [0; ENOUGH_WORDS]);
            assert_eq!(fed, Err(SplitError::Refused(Refusal::TableLists)));
        });
    }
}

#[test]
fn records_of_another_size() {
    use watch::raw;
    // 48 bytes are the record of 256 states.
    for size in [0, 48, FLOW_SIZE - 1, FLOW_SIZE, FLOW_SIZE + 1] {
        let mut record = vec![0xA5; size];
        let refusal = if size == FLOW_SIZE { 0 } else { 4 };
        // SAFETY: each pointer is good for its length, and the record is lent to nobody else.
        let opened = unsafe { raw::watch_open(L.as_ptr(), L.len(), record.as_mut_ptr(), size, [0; 1].as_mut_ptr(), 0) };
        assert_eq!((opened.refusal, opened.pairs, size), (refusal, 0, size));
        assert_eq!(record.iter().all(|&byte| byte == 0xA5), refusal == 4);
        record.fill(0);
        // SAFETY: as above; no words are lent.
        let fed = unsafe {
            raw::watch_feed(L.as_ptr(), L.len(), record.as_mut_ptr(), size, 0, L.as_ptr(), 0, [0; 1].as_mut_ptr(), 0)
        };
        assert_eq!((fed.refusal, size), (refusal, size));
        assert_eq!(Flow::try_from(&record[..]).is_ok(), refusal == 0);
    }
}

#[test]
fn the_most_rows() {
    for offset in [0, 1, 7, MOST_OFFSET] {
        for (more, refusal) in [(0, None), (1, Some(Refusal::FlowRecord))] {
            let mut record = *opened().as_bytes();
            record[OFFSET_AT..RESERVED_AT].copy_from_slice(&(offset as u32).to_le_bytes());
            record[ROWS_AT..].copy_from_slice(&(STATES as u64 * offset + more).to_le_bytes());
            let fed = Flow::from_bytes(record).feed(&list(), offset, b"", &mut []);
            assert_eq!(fed.err(), refusal, "{offset} bytes, {more} more");
        }
    }
}

#[test]
fn a_foreign_state() {
    let frontier = |states: &[u16]| {
        let mut record = [0; FLOW_SIZE];
        for state in states {
            record[usize::from(*state) / 8] |= 1 << (state % 8);
        }
        Flow::from_bytes(record)
    };
    // The barn list names 0, 1 and 2.
    for (states, start, refusal) in [
        (&[3][..], 0, Some(Refusal::FlowRecord)),
        (&[0, 3], 0, Some(Refusal::FlowRecord)),
        (&[3], 1, Some(Refusal::FlowRecord)),
        (&[0, 1, 2], 0, None),
        (&[0, 1, 2], 1, Some(Refusal::OtherStart)),
        (&[], 0, None),
    ] {
        for piece in [&b""[..], b"ab"] {
            let mut flow = frontier(states);
            assert_eq!(flow.feed(&list(), start, piece, &mut [0; 8]).err(), refusal, "{states:?} from {start}");
        }
    }
    // A signature names nothing.
    let lone = [[2, 0, 0, 0, 0, 0, 4, 0], [3, 0, 0, 0, 6, 0, 200, 0]].concat();
    let lone = List::check(&lone).unwrap();
    for (states, refusal) in [(&[4, 6][..], None), (&[200], Some(Refusal::FlowRecord)), (&[5], Some(Refusal::FlowRecord))] {
        assert_eq!(frontier(states).feed(&lone, 0, b"", &mut []).err(), refusal, "{states:?}");
    }
}

#[test]
fn split_abab() {
    T::new().check(2, |checked, _| {
        let table = checked.unwrap();
        let mut flow = opened();
        let mut words = [0; ENOUGH_WORDS];
        let fed = flow.split_feed(&table, 0, b"abab", &mut words).unwrap();
        assert_eq!(answer(fed), (4, 2, true));
        assert_eq!(words[..5], [7, 2, 7, 4, 0]);
        assert_eq!(flow.rows_read(), 7);
        assert!(flow.rows_read() <= table.bound() * 4);
    });
}

/// "abab" with the engine swapped twice: "a" plain, "b" through T at 2, "ab" through a table of bound 1.
#[test]
fn swapped_abab() {
    let one = T {
        parts: [set(&[0]), set(&[0, 1]), set(&[0, 2])].concat(),
        rows: [
            [set(&[0]), set(&[0, 1]), set(&[0])].concat(),
            [set(&[0]), set(&[0, 1]), set(&[0, 2])].concat(),
            [set(&[0]), set(&[0, 1]), set(&[0])].concat(),
        ]
        .concat(),
        splits: vec![split(&[0], [0, NO, NO, NO]), split(&[0, 1], [1, NO, NO, NO]), split(&[0, 2], [2, NO, NO, NO])],
        ..T::new()
    };
    let mut flow = opened();
    let mut words = [0; 4];
    assert_eq!(answer(flow.feed(&list(), 0, b"a", &mut words).unwrap()), (1, 0, true));
    assert_eq!(flow.rows_read(), 1);
    T::new().check(2, |checked, _| {
        assert_eq!(answer(flow.split_feed(&checked.unwrap(), 1, b"b", &mut words).unwrap()), (1, 1, true));
    });
    assert_eq!((words, flow.rows_read()), ([7, 2, 0, 0], 3));
    one.check(1, |checked, _| {
        assert_eq!(answer(flow.split_feed(&checked.unwrap(), 2, b"ab", &mut words[2..]).unwrap()), (2, 1, true));
    });
    assert_eq!((words, flow.rows_read()), ([7, 2, 7, 4], 5));
    assert_eq!(flow.frontier().collect::<Vec<u16>>(), [0, 2]);
}

#[test]
fn a_halted_split_feed_keeps_what_was_before() {
    // Without {0, 2} the feed can't go on after "ab": 14 at the third byte.
    T::new().without(2).check(2, |_, table| {
        let mut flow = opened();
        let mut words = [0; ENOUGH_WORDS];
        let halted = flow.split_feed(&table, 0, b"abab", &mut words);
        assert!(matches!(halted, Err(SplitError::Halted { bytes: 2, pairs: 1, .. })));
        assert_eq!(halt(halted), (14, 2, 1));
        assert_eq!(words[..3], [7, 2, 0]);
        assert_eq!(flow.offset(), 2);
        // As a whole piece: the same, and the pair before it is told.
        let mut flow = opened();
        let mut told = Vec::new();
        let halted = flow.split_feed_all(&table, 0, b"abab", |pair| told.push(pair.to_string())).unwrap_err();
        assert_eq!((halted.refusal(), halted.bytes(), halted.pairs()), (Refusal::NoSplit, 2, 1));
        assert_eq!((told, flow.offset()), (vec!["7 2".to_string()], 2));
        // A pause before that byte is no refusal, and neither is an empty piece at it.
        let mut flow = opened();
        assert!(!flow.split_feed(&table, 0, b"abab", &mut []).unwrap().all);
        let fed = flow.split_feed(&table, 1, b"b", &mut words).unwrap();
        assert_eq!(answer(fed), (1, 1, true));
        assert!(flow.split_feed(&table, 2, b"", &mut []).unwrap().all);
        // 14 comes before room.
        assert_eq!(halt(flow.split_feed(&table, 2, b"a", &mut [])), (14, 0, 0));
        assert_eq!(flow.split_feed(&table, 9, b"a", &mut []), Err(SplitError::Refused(Refusal::OtherStart)));
    });
}

#[test]
fn a_split_feed_tests_the_order_of_the_splits() {
    let swapped = |a: usize, b: usize| {
        let mut t = T::new();
        t.splits.swap(a, b);
        t
    };
    let twice = |i: usize| {
        let mut t = T::new();
        t.splits.insert(i, t.splits[i].clone());
        t
    };
    // As strings of bytes {8} comes before {0}, and as numbers after it.
    let eighth = |at: usize| {
        let mut t = T::new();
        t.splits.insert(at, split(&[8], [0, NO, NO, NO]));
        t
    };
    for t in [swapped(1, 2), swapped(0, 1), twice(0), twice(2), eighth(1)] {
        t.check(2, |checked, table| {
            assert_eq!(checked.err(), Some(Refusal::SplitRecord));
            for piece in [&b"abab"[..], b""] {
                let mut flow = opened();
                let mut words = [5; 3];
                let fed = flow.split_feed(&table, 0, piece, &mut words);
                assert_eq!(fed, Err(SplitError::Refused(Refusal::SplitRecord)));
                assert_eq!((words, flow.offset(), flow.rows_read()), ([5; 3], 0, 0));
                // The other rules come first.
                let other = flow.split_feed(&table, 1, piece, &mut words);
                assert_eq!(other, Err(SplitError::Refused(Refusal::OtherStart)));
            }
        });
    }
    eighth(0).check(2, |_, table| {
        let fed = opened().split_feed(&table, 0, b"abab", &mut [0; ENOUGH_WORDS]).unwrap();
        assert_eq!(answer(fed), (4, 2, true));
    });
    // Slots are not looked at before the byte.
    let mut wild = T::new();
    wild.splits = vec![split(&[0], [7, 3, 900, 1])];
    wild.check(2, |_, table| {
        assert_eq!(halt(opened().split_feed(&table, 0, b"abab", &mut [])), (14, 0, 0));
        assert!(opened().split_feed(&table, 0, b"", &mut []).unwrap().all);
    });
}

#[test]
fn the_ordinary_matcher_agrees() {
    let automaton = Automaton::read(&L);
    let mut record = vec![0; FLOW_SIZE];
    assert_eq!(ordinary::open(&automaton, &mut record, &mut []), (0, 0));
    assert_eq!(record, opened().as_bytes());
    let mut words = [9; 5];
    let accepting = Automaton::read(&at_once());
    assert_eq!(ordinary::open(&accepting, &mut record, &mut words[..3]), (15, 0));
    assert_eq!(ordinary::open(&accepting, &mut record, &mut words), (0, 2));
    assert_eq!(words, [3, 0, 5, 0, 9]);
    let mut words = [0; 5];
    let answer = ordinary::feed(&automaton, &mut record, 0, b"abab", &mut words);
    assert_eq!(answer, ordinary::Answer { refusal: 0, bytes: 4, pairs: 2, all: true });
    assert_eq!((words, record[ROWS_AT]), ([7, 2, 7, 4, 0], 7));
    let t = T::new();
    let table = ordinary::Table::read(&t.classes, &t.parts, &t.rows, &t.splits.concat());
    assert_eq!(ordinary::open(&automaton, &mut record, &mut []), (0, 0));
    let answer = ordinary::split_feed(&automaton, 2, &table, &mut record, 0, b"abab", &mut [0; 3]);
    assert_eq!(answer, ordinary::Answer { refusal: 0, bytes: 3, pairs: 1, all: false });
    assert_eq!(record[ROWS_AT], 5);
}

#[test]
fn refusals_have_numbers_and_texts() {
    let numbers: Vec<u32> = Refusal::ALL.iter().map(|refusal| refusal.number()).collect();
    assert!(numbers[0] > 0 && numbers.windows(2).all(|two| two[0] < two[1]));
    for number in 0..=99 {
        let refusal = Refusal::from_number(number);
        assert_eq!(refusal.map(Refusal::number), Some(number).filter(|n| numbers.contains(n)));
        assert!(refusal.map_or(true, |refusal| !refusal.to_string().is_empty()));
    }
}

#[cfg(feature = "std")]
#[test]
fn refusals_are_errors() {
    fn asked(bytes: &[u8]) -> Result<usize, Box<dyn std::error::Error + Send + Sync>> {
        Ok(List::check(bytes)?.records())
    }
    assert_eq!(asked(&L).unwrap(), 5);
    assert_eq!(asked(&[]).unwrap_err().downcast_ref(), Some(&Refusal::ListLength));
    let error: Box<dyn std::error::Error> = Box::new(SplitError::from(Refusal::Bound));
    assert_eq!(error.to_string(), Refusal::Bound.to_string());
}

/// A pointer with length 0 is not followed, not even NULL. (The header advises against NULL all the same.)
#[test]
fn nothing_is_read_where_a_length_is_0() {
    use std::ptr::{null, null_mut};
    use watch::raw;
    let mut record = *opened().as_bytes();
    // SAFETY: all lengths but the list's and the record's are 0.
    unsafe {
        assert_eq!(raw::watch_check_list(null(), 0), 1);
        assert_eq!(raw::watch_open(null(), 0, null_mut(), 0, null_mut(), 0).refusal, 1);
        assert_eq!(raw::watch_open(L.as_ptr(), L.len(), null_mut(), 0, null_mut(), 0).refusal, 4);
        assert_eq!(raw::watch_open(L.as_ptr(), L.len(), record.as_mut_ptr(), FLOW_SIZE, null_mut(), 0).refusal, 0);
        let fed = raw::watch_feed(L.as_ptr(), L.len(), record.as_mut_ptr(), FLOW_SIZE, 0, null(), 0, null_mut(), 0);
        assert_eq!(fed, raw::WatchFed { bytes: 0, pairs: 0, refusal: 0, all: true });
        let fed =
            raw::watch_feed(L.as_ptr(), L.len(), record.as_mut_ptr(), FLOW_SIZE, 0, b"ab".as_ptr(), 2, null_mut(), 0);
        assert_eq!(fed, raw::WatchFed { bytes: 1, pairs: 0, refusal: 0, all: false });
        let table = raw::watch_check_table(L.as_ptr(), L.len(), 1, null(), 0, null(), 0, null(), 0, null(), 0);
        assert_eq!(table, 8);
    }
}

#[test]
fn the_answer_is_laid_out_as_in_c() {
    use std::mem::{align_of, size_of};
    assert_eq!((size_of::<watch::raw::WatchFed>(), align_of::<watch::raw::WatchFed>()), (24, 8));
    assert_eq!((size_of::<watch::raw::WatchOpened>(), align_of::<watch::raw::WatchOpened>()), (16, 8));
    assert_eq!((size_of::<watch::raw::WatchHeld>(), align_of::<watch::raw::WatchHeld>()), (12, 4));
    assert_eq!((size_of::<watch::raw::WatchPart>(), align_of::<watch::raw::WatchPart>()), (24, 8));
    assert_eq!((size_of::<watch::raw::WatchCompiled>(), align_of::<watch::raw::WatchCompiled>()), (24, 8));
}
