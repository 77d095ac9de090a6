//! Openings and feeds of whole pieces: `open_all`, `feed_all` and `split_feed_all` tell what one call with room for all pairs tells, in
//! the same order, and leave the same record, however often they pause.

mod common;

use common::{builders, dice, ordinary};

use dice::Dice;
use ordinary::Automaton;
use watch::{Flow, List, Pair, Refusal, SplitError, Table, TableLists};
use watch::{
    BYTE_VALUES, ENOUGH_WORDS, FLOW_SIZE, MOST_OFFSET, OFFSET_AT, RECORD_SIZE, RESERVED_AT, SET_SIZE, SIGNATURES,
};

/// All signatures at each byte: a feed pauses after every byte.
fn loud() -> Vec<u8> {
    let mut list = vec![1, 0, 255, 0, 0, 0, 0, 0, 2, 0, 0, 0, 0, 0, 0, 0];
    for signature in 0..SIGNATURES as u16 {
        list.extend([3, 0, 0, 0, 0, 0]);
        list.extend(signature.to_le_bytes());
    }
    list
}

#[test]
fn a_pause_after_every_byte() {
    let bytes = loud();
    let list = List::check(&bytes).unwrap();
    let mut told = Vec::new();
    let mut flow = Flow::open_all(&list, |pair| told.push(pair));
    let fed = flow.feed_all(&list, 0, b"moo", |pair| told.push(pair)).unwrap();
    assert_eq!((fed.bytes, fed.pairs), (3, 3 * SIGNATURES));
    let due = (0..=3).flat_map(|offset| (0..SIGNATURES as u32).map(move |signature| Pair { signature, offset }));
    assert!(told.into_iter().eq(due));
    assert_eq!((flow.offset(), flow.rows_read()), (3, 3));
}

#[test]
fn all_signatures_at_opening() {
    let bytes = loud();
    let list = List::check(&bytes).unwrap();
    let mut words = [u32::MAX; ENOUGH_WORDS + 1];
    assert_eq!(Flow::open(&list, &mut words[..ENOUGH_WORDS - 1]), Err(Refusal::NoRoom));
    assert_eq!(words, [u32::MAX; ENOUGH_WORDS + 1]);
    let opened = Flow::open(&list, &mut words).unwrap();
    assert_eq!((opened.pairs, words[ENOUGH_WORDS]), (SIGNATURES, u32::MAX));
    assert!(opened.told(&words).eq((0..SIGNATURES as u32).map(|signature| Pair { signature, offset: 0 })));
    // One signature less is needed, and told, where the list has one accept record less.
    let fewer = List::check(&bytes[..bytes.len() - RECORD_SIZE]).unwrap();
    let opened = Flow::open(&fewer, &mut words[..ENOUGH_WORDS - 1]).unwrap();
    assert_eq!(opened.pairs, SIGNATURES - 1);
}

#[test]
fn a_halt_after_pauses() {
    // {0} is the only split; '!' leads to the empty set, at which the next byte halts.
    let bytes = loud();
    let list = List::check(&bytes).unwrap();
    let mut classes = [0; BYTE_VALUES];
    classes[usize::from(b'!')] = 1;
    let mut set = [0; SET_SIZE];
    set[0] = 1;
    let rows = [set, [0; SET_SIZE]].concat();
    let splits = [&set[..], &[0, 0, 255, 255, 255, 255, 255, 255]].concat();
    let lists = TableLists { classes: &classes, parts: &set, rows: &rows, splits: &splits };
    let table = Table::from_saved(&list, 1, lists);
    let mut flow = Flow::open_all(&list, |_| ());
    let mut told = Vec::new();
    let halted = flow.split_feed_all(&table, 0, b"moo!moo", |pair| told.push(pair)).unwrap_err();
    assert_eq!((halted.refusal(), halted.bytes(), halted.pairs()), (Refusal::NoSplit, 4, 3 * SIGNATURES));
    assert_eq!((told.len(), told.last()), (3 * SIGNATURES, Some(&Pair { signature: 255, offset: 3 })));
    assert_eq!((flow.offset(), flow.rows_read(), flow.frontier().count()), (4, 4, 0));
}

#[test]
fn a_refusal_tells_and_changes_nothing() {
    let bytes = loud();
    let list = List::check(&bytes).unwrap();
    let refused = |record: [u8; FLOW_SIZE], start: u64, piece: &[u8]| {
        let mut flow = Flow::from_bytes(record);
        let refusal = flow.feed_all(&list, start, piece, |pair| panic!("{pair} is told")).unwrap_err();
        assert_eq!(flow, Flow::from_bytes(record));
        refusal
    };
    let opened = Flow::open_all(&list, |_| ()).into_bytes();
    assert_eq!(refused(opened, 1, b"m"), Refusal::OtherStart);
    assert_eq!(refused(opened, u64::MAX, b"moo"), Refusal::OtherStart);
    let mut late = opened;
    late[OFFSET_AT..RESERVED_AT].fill(255);
    assert_eq!(refused(late, MOST_OFFSET, b"m"), Refusal::TooLong);
    let mut spoilt = opened;
    spoilt[RESERVED_AT] = 1;
    assert_eq!(refused(spoilt, 0, b""), Refusal::FlowRecord);
}

#[test]
fn an_empty_piece_is_taken_whole() {
    let bytes = loud();
    let list = List::check(&bytes).unwrap();
    let mut flow = Flow::open_all(&list, |_| ());
    let fed = flow.feed_all(&list, 0, b"", |pair| panic!("{pair} is told")).unwrap();
    assert_eq!((fed.bytes, fed.pairs), (0, 0));
    assert_eq!(flow, Flow::open_all(&list, |_| ()));
}

/// What a feed told and answered: its pairs, and the refusal, bytes and pairs that it answers.
type Told = (Vec<Pair>, u32, usize, usize);

/// A feed with room for a pair of each signature at each byte, so that it never pauses.
fn at_once(flow: &mut Flow, list: &List, table: Option<&Table>, start: u64, piece: &[u8]) -> Told {
    let mut words = vec![0; ENOUGH_WORDS * piece.len()];
    let fed = match table {
        Some(table) => flow.split_feed(table, start, piece, &mut words),
        None => flow.feed(list, start, piece, &mut words).map_err(SplitError::from),
    };
    let (refusal, bytes, pairs) = match fed {
        Ok(fed) => {
            assert!(fed.all);
            (0, fed.bytes, fed.pairs)
        }
        Err(error) => (error.refusal().number(), error.bytes(), error.pairs()),
    };
    (watch::pairs_in(&words[..2 * pairs]).collect(), refusal, bytes, pairs)
}

fn by_callback(flow: &mut Flow, list: &List, table: Option<&Table>, start: u64, piece: &[u8]) -> Told {
    let mut told = Vec::new();
    let fed = match table {
        Some(table) => flow.split_feed_all(table, start, piece, |pair| told.push(pair)),
        None => flow.feed_all(list, start, piece, |pair| told.push(pair)).map_err(SplitError::from),
    };
    match fed {
        Ok(fed) => (told, 0, fed.bytes, fed.pairs),
        Err(error) => (told, error.refusal().number(), error.bytes(), error.pairs()),
    }
}

/// A list with more accepts than most, so that feeds pause.
fn talkative_list(dice: &mut Dice) -> Vec<u8> {
    let mut list = builders::good_list(dice);
    if dice.once_in(2) {
        let start = list.chunks(RECORD_SIZE).find(|record| record[0] == 2);
        let (low, high) = start.map_or((0, 0), |start| (start[6], start[7]));
        for signature in 0..dice.from(1, SIGNATURES) as u16 {
            list.extend([3, 0, 0, 0, low, high]);
            list.extend(signature.to_le_bytes());
        }
        list.extend([1, 0, 255, 0, low, high, low, high]);
    }
    list
}

#[test]
fn whole_pieces_are_told_as_by_one_feed_with_room() {
    let mut dice = Dice(5);
    let (mut pauses, mut refusals, mut late_halts, mut foreign) = (0, 0, 0, 0);
    for _ in 0..300 {
        let bytes = talkative_list(&mut dice);
        let list = match List::try_from(&bytes[..]) {
            Ok(list) => list,
            Err(refusal) => {
                assert_eq!(refusal, Refusal::ListLength);
                continue;
            }
        };
        let automaton = Automaton::read(&bytes).unwrap();
        let lists = match builders::good_table(&mut dice, &automaton) {
            Some(lists) if dice.once_in(2) => lists,
            _ => builders::wild_table(&mut dice, &automaton),
        };
        let table =
            TableLists { classes: &lists.classes, parts: &lists.parts, rows: &lists.rows, splits: &lists.splits };
        let table = Table::from_saved(&list, lists.bound, table);
        for table in [None, Some(&table)] {
            let (mut words, mut first) = ([0; ENOUGH_WORDS], Vec::new());
            let opened = Flow::open(&list, &mut words).unwrap();
            let mut flow = Flow::open_all(&list, |pair| first.push(pair));
            assert!(opened.flow == flow && opened.told(&words).eq(first));
            for _ in 0..4 {
                let piece = builders::piece(&mut dice);
                let start = u64::from(flow.offset()) + u64::from(dice.once_in(20));
                let mut other = flow.clone();
                let told = by_callback(&mut flow, &list, table, start, &piece);
                let whole = at_once(&mut other, &list, table, start, &piece);
                if told.1 == 4 && told.2 > 0 {
                    // A wild table has led to a foreign state, and after the pause there the rest is refused.
                    assert!(whole.0.starts_with(&told.0) && told.0.len() == told.3 && told.2 < piece.len());
                    foreign += 1;
                    break;
                }
                assert_eq!(told, whole);
                assert_eq!(flow, other);
                pauses += usize::from(told.3 > SIGNATURES);
                refusals += usize::from(told.1 != 0);
                late_halts += usize::from(told.1 == 14 && told.3 > SIGNATURES);
            }
        }
    }
    println!("whole: {pauses} feeds with pauses, {refusals} refusals, {late_halts} of them 14 after a pause; {foreign} of 4 after one");
    assert!(pauses > 100 && refusals > 100 && late_halts > 0 && foreign > 0);
}
