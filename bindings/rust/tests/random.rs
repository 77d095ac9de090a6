//! Random calls on the archive, each compared with the ordinary matcher of `ordinary.rs`: the answer, and every byte and word of every
//! buffer that could be written, with some more on either side of it. `WATCH_CALLS` is the number of calls (20,000 unless it is
//! set), `WATCH_SEED` another seed.

mod common;

use common::{builders, dice, number, ordinary};

use builders::Lists;
use dice::Dice;
use ordinary::{Answer, Automaton};
use std::collections::BTreeMap;
use watch::{raw, Fed, Flow, List, Refusal, Table, TableLists};
use watch::{ENOUGH_WORDS, FLOW_SIZE, OFFSET_AT, RESERVED_AT};

/// Bytes or words on either side of a buffer, which stay as they are.
const BESIDE: usize = 16;

#[derive(Clone, Copy, PartialEq, Eq, PartialOrd, Ord, Debug)]
enum Entry {
    CheckList,
    Open,
    Feed,
    CheckTable,
    SplitFeed,
}

const ENTRIES: [(Entry, &str, &[u32]); 5] = [
    (Entry::CheckList, "list check", &[0, 1, 2, 3]),
    (Entry::Open, "opening", &[0, 1, 2, 3, 4, 15]),
    (Entry::Feed, "plain feed", &[0, 1, 2, 3, 4, 5, 6]),
    (Entry::CheckTable, "table check", &[0, 1, 2, 3, 7, 8, 9, 10, 11, 12, 13]),
    (Entry::SplitFeed, "split feed", &[0, 1, 2, 3, 4, 5, 6, 7, 8, 9, 14]),
];

/// What was run.
#[derive(Default)]
struct Tally {
    answers: BTreeMap<(Entry, u32), usize>,
    safe: usize,
    pauses: usize,
    standstills: usize,
    late_halts: usize,
    swaps: usize,
    empty_pieces: usize,
    odd_rooms: usize,
    bytes: u64,
    pairs: u64,
}

impl Tally {
    fn calls(&self) -> usize {
        self.answers.values().sum()
    }

    fn add(&mut self, entry: Entry, refusal: u32) {
        *self.answers.entry((entry, refusal)).or_default() += 1;
    }

    fn add_feed(&mut self, entry: Entry, answer: Answer, piece: &[u8], words: usize) {
        self.add(entry, answer.refusal);
        self.bytes += answer.bytes;
        self.pairs += answer.pairs;
        self.pauses += usize::from(answer.refusal == 0 && !answer.all);
        self.standstills += usize::from(answer.refusal == 0 && !answer.all && answer.bytes == 0);
        self.late_halts += usize::from(answer.refusal == 14 && answer.bytes > 0);
        self.empty_pieces += usize::from(piece.is_empty());
        self.odd_rooms += words % 2;
    }
}

/// A buffer with something on either side.
fn between<T: Copy>(content: &[T], side: [T; BESIDE]) -> Vec<T> {
    [&side, content, &side].concat()
}

fn answer(fed: raw::WatchFed) -> Answer {
    Answer { refusal: fed.refusal, bytes: fed.bytes, pairs: fed.pairs, all: fed.all }
}

fn answer_of(fed: Fed) -> Answer {
    Answer { refusal: 0, bytes: fed.bytes as u64, pairs: fed.pairs as u64, all: fed.all }
}

fn refused(refusal: Refusal) -> Answer {
    Answer { refusal: refusal.number(), bytes: 0, pairs: 0, all: false }
}

/// One list, its table and its flow, and calls on them.
struct Case<'d> {
    dice: &'d mut Dice,
    list: Vec<u8>,
    automaton: Result<Automaton, u32>,
    lists: Lists,
    table: Option<ordinary::Table>,
    /// Whether the table was accepted by the check, on this list.
    accepted: bool,
    record: Vec<u8>,
    /// Whether the record comes from opening and feeds on this list and this accepted table alone.
    own: bool,
}

impl<'d> Case<'d> {
    fn new(dice: &'d mut Dice) -> Case<'d> {
        let list = if dice.once_in(6) { builders::broken_list(dice) } else { builders::good_list(dice) };
        let automaton = Automaton::read(&list);
        let mut case = Case {
            dice,
            list,
            automaton,
            lists: Lists::default(),
            table: None,
            accepted: false,
            record: vec![0; FLOW_SIZE],
            own: false,
        };
        case.another_table();
        case
    }

    fn another_table(&mut self) {
        let dice = &mut *self.dice;
        let spare = Automaton::read(&builders::good_list(dice)).unwrap();
        let automaton = self.automaton.as_ref().unwrap_or(&spare);
        let mut lists = match dice.below(4) {
            0 => builders::wild_table(dice, automaton),
            _ => builders::good_table(dice, automaton).unwrap_or_else(|| builders::wild_table(dice, automaton)),
        };
        match dice.below(8) {
            0..=2 => (),
            3 => (0..dice.from(2, 3)).for_each(|_| builders::damage(dice, &mut lists)),
            _ => builders::damage(dice, &mut lists),
        }
        self.table = ordinary::Table::read(&lists.classes, &lists.parts, &lists.rows, &lists.splits);
        self.lists = lists;
        self.accepted = false;
    }

    fn another_record(&mut self) {
        self.own = false;
        self.record = builders::saved_record(self.dice, self.automaton.as_ref().ok());
        if self.dice.once_in(2) {
            builders::damage_record(self.dice, &mut self.record);
        }
    }

    fn side<const N: usize>(&mut self) -> [u8; N] {
        std::array::from_fn(|_| self.dice.byte())
    }

    fn words_side<const N: usize>(&mut self) -> [u32; N] {
        std::array::from_fn(|_| self.dice.next() as u32)
    }

    fn check_list(&mut self, tally: &mut Tally) {
        let expected = self.automaton.as_ref().err().copied().unwrap_or(0);
        // SAFETY: here and below, every pointer and length is that of a slice, and what is written has a buffer of its own.
        let got = unsafe { raw::watch_check_list(self.list.as_ptr(), self.list.len()) };
        assert_eq!(got, expected, "list {:?}", self.list);
        assert_eq!(List::check(&self.list).map_or_else(Refusal::number, |_| 0), expected);
        tally.add(Entry::CheckList, expected);
    }

    fn open(&mut self, tally: &mut Tally) {
        if self.dice.once_in(6) {
            self.another_record();
        } else if self.record.len() != FLOW_SIZE {
            self.record = (0..FLOW_SIZE).map(|_| self.dice.byte()).collect();
        }
        // As many words as the pairs of offset 0 need, one or two less or more, or any number.
        let needed = self.automaton.as_ref().map_or(0, |read| 2 * read.accepted(&read.starts).len());
        let count = match self.dice.below(4) {
            0 => builders::words(self.dice),
            _ => (needed + self.dice.below(5)).saturating_sub(2),
        };
        let words: Vec<u32> = (0..count).map(|_| self.dice.next() as u32).collect();
        let (side, words_side) = (self.side(), self.words_side());
        let mut buffer = between(&self.record, side);
        let mut words_buffer = between(&words, words_side);
        let (length, mut words_left) = (self.record.len(), words.clone());
        let (refusal, pairs) = ordinary::open(&self.automaton, &mut self.record, &mut words_left);
        let got = unsafe {
            raw::watch_open(
                self.list.as_ptr(),
                self.list.len(),
                buffer[BESIDE..].as_mut_ptr(),
                length,
                words_buffer[BESIDE..].as_mut_ptr(),
                count,
            )
        };
        assert_eq!(got, raw::WatchOpened { pairs, refusal }, "opening {:?} with {count} words", self.list);
        assert_eq!(buffer, between(&self.record, side));
        assert_eq!(words_buffer, between(&words_left, words_side));
        if count >= ENOUGH_WORDS {
            assert_ne!(refusal, 15, "room for a pair of each signature");
        }
        if let (0 | 15, Ok(list)) = (refusal, List::check(&self.list)) {
            let mut words = words;
            match Flow::open(&list, &mut words) {
                Ok(opened) => {
                    assert_eq!((opened.flow.as_bytes()[..].to_vec(), opened.pairs as u64), (self.record.clone(), pairs))
                }
                Err(refused) => assert_eq!(refused.number(), refusal),
            }
            assert_eq!(words, words_left);
        }
        // A record that was opened before and is refused now stays one of this list.
        self.own = refusal == 0 || self.own && refusal == 15;
        tally.add(Entry::Open, refusal);
    }

    fn check_table(&mut self, tally: &mut Tally) {
        let t = &self.lists;
        let expected = ordinary::check_table(&self.automaton, t.bound, &self.table);
        let got = unsafe {
            raw::watch_check_table(
                self.list.as_ptr(),
                self.list.len(),
                t.bound,
                t.classes.as_ptr(),
                t.classes.len(),
                t.parts.as_ptr(),
                t.parts.len(),
                t.rows.as_ptr(),
                t.rows.len(),
                t.splits.as_ptr(),
                t.splits.len(),
            )
        };
        assert_eq!(got, expected, "table check");
        self.accepted = expected == 0;
        tally.add(Entry::CheckTable, expected);
    }

    /// A stated start: mostly the right one.
    fn start(&mut self) -> u64 {
        let offset = match self.record.get(OFFSET_AT..RESERVED_AT) {
            Some(bytes) => u64::from(u32::from_le_bytes(bytes.try_into().unwrap())),
            None => 0,
        };
        match self.dice.below(30) {
            0 => offset + 1,
            1 => offset.wrapping_sub(1),
            2 => offset + (1 << 32),
            3 => self.dice.next(),
            _ => offset,
        }
    }

    fn feed(&mut self, entry: Entry, tally: &mut Tally) {
        if self.dice.once_in(12) {
            self.another_record();
        }
        let split = entry == Entry::SplitFeed;
        let start = self.start();
        let whole = builders::piece(self.dice);
        // The piece is a part of a longer one, so that it begins and ends anywhere.
        let from = self.dice.below(whole.len() + 1);
        let piece = if self.dice.once_in(2) { &whole[from..] } else { &whole[..] };
        let count = builders::words(self.dice);
        let words: Vec<u32> = (0..count).map(|_| self.dice.next() as u32).collect();
        let (side, words_side) = (self.side(), self.words_side());
        let mut buffer = between(&self.record, side);
        let mut words_buffer = between(&words, words_side);
        let (length, mut words_left) = (self.record.len(), words);
        let list = List::check(&self.list);
        let safe = list.is_ok() && length == FLOW_SIZE && self.dice.once_in(4);
        let t = &self.lists;

        let expected = if split {
            ordinary::split_feed(&self.automaton, t.bound, &self.table, &mut self.record, start, piece, &mut words_left)
        } else {
            ordinary::feed(&self.automaton, &mut self.record, start, piece, &mut words_left)
        };

        let flow_at = buffer[BESIDE..].as_mut_ptr();
        let words_slice = &mut words_buffer[BESIDE..BESIDE + count];
        let got = if safe {
            let list = list.unwrap();
            let mut flow = Flow::try_from(&buffer[BESIDE..BESIDE + FLOW_SIZE]).unwrap();
            let got = if split {
                let lists = TableLists { classes: &t.classes, parts: &t.parts, rows: &t.rows, splits: &t.splits };
                let table = Table::from_saved(&list, t.bound, lists);
                match flow.split_feed(&table, start, piece, words_slice) {
                    Ok(fed) => answer_of(fed),
                    Err(error) => Answer {
                        refusal: error.refusal().number(),
                        bytes: error.bytes() as u64,
                        pairs: error.pairs() as u64,
                        all: false,
                    },
                }
            } else {
                flow.feed(&list, start, piece, words_slice).map_or_else(refused, answer_of)
            };
            buffer[BESIDE..BESIDE + FLOW_SIZE].copy_from_slice(flow.as_bytes());
            tally.safe += 1;
            got
        } else if split {
            answer(unsafe {
                raw::watch_split_feed(
                    self.list.as_ptr(),
                    self.list.len(),
                    t.bound,
                    t.classes.as_ptr(),
                    t.classes.len(),
                    t.parts.as_ptr(),
                    t.parts.len(),
                    t.rows.as_ptr(),
                    t.rows.len(),
                    t.splits.as_ptr(),
                    t.splits.len(),
                    flow_at,
                    length,
                    start,
                    piece.as_ptr(),
                    piece.len(),
                    words_slice.as_mut_ptr(),
                    count,
                )
            })
        } else {
            answer(unsafe {
                raw::watch_feed(
                    self.list.as_ptr(),
                    self.list.len(),
                    flow_at,
                    length,
                    start,
                    piece.as_ptr(),
                    piece.len(),
                    words_slice.as_mut_ptr(),
                    count,
                )
            })
        };
        assert_eq!(got, expected, "{entry:?} of {piece:?} from {start} with {count} words, list {:?}", self.list);
        assert_eq!(words_buffer, between(&words_left, words_side), "{entry:?}: the words");
        assert_eq!(buffer, between(&self.record, side), "{entry:?}: the record");
        if self.own && self.accepted {
            assert_ne!(got.refusal, 14, "an accepted table never halts a flow of its own");
        }
        if self.own {
            assert_ne!(got.refusal, 4, "a flow of the list holds no foreign state");
        }
        if count >= ENOUGH_WORDS && !piece.is_empty() && got.refusal == 0 {
            assert!(got.bytes > 0, "room for a pair of each signature, and no byte consumed");
        }
        // After a split feed through a table that was not accepted the frontier may be anything.
        self.own = self.own && (!split || self.accepted);
        tally.add_feed(entry, expected, piece, count);
        if expected.refusal == 4 && self.dice.once_in(2) {
            self.open(tally);
        }
    }

    fn calls(&mut self, tally: &mut Tally) {
        self.check_list(tally);
        self.check_table(tally);
        self.open(tally);
        for _ in 0..self.dice.from(10, 70) {
            match self.dice.below(60) {
                0 => self.check_list(tally),
                1..=4 => self.open(tally),
                // Another table, and now and then another flow: one that is opened on the list goes on through each table that passes.
                5..=7 => {
                    self.another_table();
                    if !self.dice.once_in(3) {
                        tally.swaps += usize::from(self.own);
                        self.check_table(tally);
                    }
                    if self.dice.once_in(4) {
                        self.open(tally);
                    }
                }
                8..=31 => self.feed(Entry::Feed, tally),
                _ => self.feed(Entry::SplitFeed, tally),
            }
        }
    }
}

#[test]
fn random_calls_are_answered_as_by_the_ordinary_matcher() {
    let calls = number("WATCH_CALLS", 20_000) as usize;
    let seed = number("WATCH_SEED", 1);
    let mut tally = Tally::default();
    let mut cases = 0;
    while tally.calls() < calls {
        // Each case has a seed of its own, so that one can be run alone.
        let mut dice = Dice(seed.wrapping_mul(1 << 32).wrapping_add(cases));
        Case::new(&mut dice).calls(&mut tally);
        cases += 1;
    }
    println!("random: {} calls in {cases} cases with seed {seed}, all equal", tally.calls());
    println!(
        "  {} feeds through the safe face; {} pauses, {} of them at the first byte; {} refusals 14 after some bytes; {} other tables in mid-flow; {} empty pieces; {} odd rooms",
        tally.safe, tally.pauses, tally.standstills, tally.late_halts, tally.swaps, tally.empty_pieces, tally.odd_rooms
    );
    println!("  {} bytes consumed, {} pairs told", tally.bytes, tally.pairs);
    for (entry, name, refusals) in ENTRIES {
        let of = tally.answers.iter().filter(|((e, _), _)| *e == entry);
        let text: Vec<String> = of.clone().map(|((_, refusal), count)| format!("{refusal}:{count}")).collect();
        println!("  {name:11} {:8}  {}", of.clone().map(|(_, count)| count).sum::<usize>(), text.join(" "));
        if calls >= 20_000 {
            let seen: Vec<u32> = of.map(|((_, refusal), _)| *refusal).collect();
            assert_eq!(seen, refusals, "{name}: every refusal that it can give is among the calls");
        }
    }
}
