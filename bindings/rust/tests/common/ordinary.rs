//! An ordinary matcher, written from the rules alone with plain structures: a set of states is a `BTreeSet`, the automaton has
//! its edges by state, a table is decoded into sets. It shares nothing with the matcher that it is compared with but the names of the
//! sizes.

use std::collections::{BTreeMap, BTreeSet};
use watch::{
    BYTE_VALUES, FLOW_SIZE, MOST_BOUND, MOST_CLASS, MOST_LIST, MOST_OFFSET, MOST_PARTS, MOST_SPLITS, OFFSET_AT,
    RECORD_SIZE, RESERVED_AT, ROWS_AT, SET_SIZE, SIGNATURES, SLOTS, SPLIT_SIZE, STATES, UNUSED,
};

pub type Set = BTreeSet<u16>;

pub fn set_of(bytes: &[u8]) -> Set {
    (0..STATES as u16).filter(|&s| bytes[usize::from(s) / 8] & (1 << (s % 8)) != 0).collect()
}

pub fn bytes_of(set: &Set) -> [u8; SET_SIZE] {
    let mut bytes = [0; SET_SIZE];
    for &s in set {
        bytes[usize::from(s) / 8] |= 1 << (s % 8);
    }
    bytes
}

fn number(bytes: &[u8]) -> u64 {
    bytes.iter().rev().fold(0, |n, &b| n * 256 + u64::from(b))
}

// The signature list.

#[derive(Clone, Debug)]
pub struct Edge {
    pub low: u8,
    pub high: u8,
    pub either_case: bool,
    pub to: u16,
}

impl Edge {
    /// Whether a byte takes the edge: itself, or for either case in capitals or in small letters.
    pub fn takes(&self, byte: u8) -> bool {
        let lies = |byte| self.low <= byte && byte <= self.high;
        lies(byte) || (self.either_case && (lies(byte.to_ascii_uppercase()) || lies(byte.to_ascii_lowercase())))
    }
}

#[derive(Clone, Debug, Default)]
pub struct Automaton {
    pub edges: BTreeMap<u16, Vec<Edge>>,
    pub starts: Set,
    pub accepts: BTreeMap<u16, BTreeSet<u16>>,
}

/// A state or a signature of a record, which has to be below a number: else refusal 2.
fn below(most: usize, bytes: &[u8]) -> Result<u16, u32> {
    let n = number(bytes);
    if n < most as u64 {
        Ok(n as u16)
    } else {
        Err(2)
    }
}

impl Automaton {
    /// Reads a list, or gives the number of its refusal.
    pub fn read(list: &[u8]) -> Result<Automaton, u32> {
        if list.is_empty() || list.len() > MOST_LIST || list.len() % RECORD_SIZE != 0 {
            return Err(1);
        }
        let mut automaton = Automaton::default();
        for record in list.chunks(RECORD_SIZE) {
            let (middle, last) = (&record[4..6], &record[6..8]);
            match record[0] {
                1 => {
                    let (low, high) = (record[1], record[2]);
                    if low > high || record[3] > 1 {
                        return Err(2);
                    }
                    let edge = Edge { low, high, either_case: record[3] == 1, to: below(STATES, last)? };
                    automaton.edges.entry(below(STATES, middle)?).or_default().push(edge);
                }
                2 => {
                    if record[1..6].iter().any(|&b| b != 0) {
                        return Err(2);
                    }
                    automaton.starts.insert(below(STATES, last)?);
                }
                3 => {
                    if record[1..4].iter().any(|&b| b != 0) {
                        return Err(2);
                    }
                    let signature = below(SIGNATURES, last)?;
                    automaton.accepts.entry(below(STATES, middle)?).or_default().insert(signature);
                }
                _ => return Err(2),
            }
        }
        if automaton.starts.is_empty() {
            return Err(3);
        }
        Ok(automaton)
    }

    /// The union of the targets of all states of a frontier on a byte.
    pub fn step(&self, frontier: &Set, byte: u8) -> Set {
        let mut next = Set::new();
        for state in frontier {
            for edge in self.edges.get(state).map_or(&[][..], |edges| edges) {
                if edge.takes(byte) {
                    next.insert(edge.to);
                }
            }
        }
        next
    }

    /// The states that some record names.
    pub fn named(&self) -> Set {
        let edges = self.edges.iter().flat_map(|(from, edges)| edges.iter().map(|edge| edge.to).chain([*from]));
        edges.chain(self.starts.iter().copied()).chain(self.accepts.keys().copied()).collect()
    }

    /// The signatures that the states of a frontier accept, each once, rising.
    pub fn accepted(&self, frontier: &Set) -> BTreeSet<u16> {
        frontier.iter().filter_map(|state| self.accepts.get(state)).flatten().copied().collect()
    }
}

// The flow record.

pub struct Flow {
    pub frontier: Set,
    pub offset: u64,
    pub rows: u64,
}

impl Flow {
    pub fn write(&self) -> Vec<u8> {
        let mut record = bytes_of(&self.frontier).to_vec();
        record.extend((self.offset as u32).to_le_bytes());
        record.extend([0; 4]);
        record.extend(self.rows.to_le_bytes());
        record
    }
}

/// Reads a record and holds it and a piece to the list: refusals 4 to 6.
fn flow_for(automaton: &Automaton, record: &[u8], start: u64, piece: &[u8]) -> Result<Flow, u32> {
    if record.len() != FLOW_SIZE || record[RESERVED_AT..ROWS_AT] != [0; 4] {
        return Err(4);
    }
    let flow = Flow {
        frontier: set_of(&record[..SET_SIZE]),
        offset: number(&record[OFFSET_AT..RESERVED_AT]),
        rows: number(&record[ROWS_AT..]),
    };
    if flow.rows > STATES as u64 * flow.offset || !flow.frontier.is_subset(&automaton.named()) {
        return Err(4);
    }
    if start != flow.offset {
        return Err(5);
    }
    if flow.offset + piece.len() as u64 > MOST_OFFSET {
        return Err(6);
    }
    Ok(flow)
}

/// Refusal and pairs.
pub fn open(list: &Result<Automaton, u32>, record: &mut Vec<u8>, words: &mut [u32]) -> (u32, u64) {
    let automaton = match list {
        Ok(automaton) => automaton,
        Err(refusal) => return (*refusal, 0),
    };
    if record.len() != FLOW_SIZE {
        return (4, 0);
    }
    let due = automaton.accepted(&automaton.starts);
    if due.len() > words.len() / 2 {
        return (15, 0);
    }
    for (signature, pair) in due.iter().zip(words.chunks_mut(2)) {
        pair.copy_from_slice(&[u32::from(*signature), 0]);
    }
    *record = Flow { frontier: automaton.starts.clone(), offset: 0, rows: 0 }.write();
    (0, due.len() as u64)
}

// The split table.

#[derive(Clone, Debug)]
pub struct Split {
    pub bytes: [u8; SET_SIZE],
    pub set: Set,
    pub slots: [u16; SLOTS],
}

impl Split {
    fn used(&self) -> Vec<u16> {
        self.slots.iter().copied().filter(|&slot| slot != UNUSED).collect()
    }

    fn taken(&self) -> Vec<u16> {
        self.slots.iter().copied().take_while(|&slot| slot != UNUSED).collect()
    }
}

#[derive(Clone, Debug)]
pub struct Table {
    pub classes: Vec<usize>,
    pub width: usize,
    pub parts: Vec<Set>,
    pub rows: Vec<Set>,
    pub splits: Vec<Split>,
    /// Of each set the first split that has it.
    pub first: BTreeMap<Set, usize>,
}

impl Table {
    /// Reads the four lists; `None` is refusal 8.
    pub fn read(classes: &[u8], parts: &[u8], rows: &[u8], splits: &[u8]) -> Option<Table> {
        if classes.len() != BYTE_VALUES || classes.iter().any(|&class| class > MOST_CLASS) {
            return None;
        }
        let width = usize::from(*classes.iter().max().unwrap()) + 1;
        if parts.len() % SET_SIZE != 0 || !(1..=MOST_PARTS).contains(&(parts.len() / SET_SIZE)) {
            return None;
        }
        if rows.len() != parts.len() * width {
            return None;
        }
        if splits.len() % SPLIT_SIZE != 0 || !(1..=MOST_SPLITS).contains(&(splits.len() / SPLIT_SIZE)) {
            return None;
        }
        let splits: Vec<Split> = splits
            .chunks(SPLIT_SIZE)
            .map(|record| {
                let (set, slots) = record.split_at(SET_SIZE);
                Split {
                    bytes: set.try_into().unwrap(),
                    set: set_of(set),
                    slots: std::array::from_fn(|i| number(&slots[2 * i..2 * i + 2]) as u16),
                }
            })
            .collect();
        let mut first = BTreeMap::new();
        for (i, split) in splits.iter().enumerate() {
            first.entry(split.set.clone()).or_insert(i);
        }
        Some(Table {
            classes: classes.iter().map(|&class| usize::from(class)).collect(),
            width,
            parts: parts.chunks(SET_SIZE).map(set_of).collect(),
            rows: rows.chunks(SET_SIZE).map(set_of).collect(),
            splits,
            first,
        })
    }

    fn row(&self, part: usize, byte: u8) -> &Set {
        &self.rows[part * self.width + self.classes[usize::from(byte)]]
    }

    /// Rule 9 of the sets alone.
    fn unordered(&self) -> bool {
        self.splits.windows(2).any(|two| two[0].bytes >= two[1].bytes)
    }

    fn breaks_9(&self, bound: u64) -> bool {
        self.unordered()
            || self.splits.iter().any(|split| {
                let used = split.used();
                used.iter().any(|&slot| usize::from(slot) >= self.parts.len())
                    || used != split.taken()
                    || used.windows(2).any(|two| two[0] >= two[1])
                    || used.len() as u64 > bound
            })
    }

    fn breaks_10(&self, automaton: &Automaton) -> bool {
        (0..self.parts.len())
            .any(|part| (0..=255).any(|byte| automaton.step(&self.parts[part], byte) != *self.row(part, byte)))
    }

    fn breaks_11(&self) -> bool {
        self.splits.iter().any(|split| {
            let union: Set = split.used().iter().flat_map(|&slot| &self.parts[usize::from(slot)]).copied().collect();
            union != split.set
        })
    }

    fn breaks_13(&self, automaton: &Automaton) -> bool {
        self.splits
            .iter()
            .any(|split| (0..=255).any(|byte| !self.first.contains_key(&automaton.step(&split.set, byte))))
    }
}

pub fn check_table(list: &Result<Automaton, u32>, bound: u64, table: &Option<Table>) -> u32 {
    let automaton = match list {
        Ok(automaton) => automaton,
        Err(refusal) => return *refusal,
    };
    if !(1..=MOST_BOUND).contains(&bound) {
        return 7;
    }
    let table = match table {
        Some(table) => table,
        None => return 8,
    };
    if table.breaks_9(bound) {
        return 9;
    }
    if table.breaks_10(automaton) {
        return 10;
    }
    if table.breaks_11() {
        return 11;
    }
    if !table.first.contains_key(&automaton.starts) {
        return 12;
    }
    if table.breaks_13(automaton) {
        return 13;
    }
    0
}

// The feeds.

#[derive(Clone, Copy, Debug, PartialEq, Eq)]
pub struct Answer {
    pub refusal: u32,
    pub bytes: u64,
    pub pairs: u64,
    pub all: bool,
}

fn refused(refusal: u32) -> Answer {
    Answer { refusal, bytes: 0, pairs: 0, all: false }
}

/// Feeds byte by byte. `moves` gives the new frontier and the rows read for a frontier and a byte, or `None` for refusal 14.
fn run(
    automaton: &Automaton,
    mut flow: Flow,
    piece: &[u8],
    words: &mut [u32],
    record: &mut Vec<u8>,
    moves: impl Fn(&Set, u8) -> Option<(Set, u64)>,
) -> Answer {
    let room = words.len() / 2;
    let mut answer = Answer { refusal: 0, bytes: 0, pairs: 0, all: false };
    for &byte in piece {
        let (next, rows) = match moves(&flow.frontier, byte) {
            Some(moved) => moved,
            None => {
                answer.refusal = 14;
                break;
            }
        };
        let due = automaton.accepted(&next);
        if answer.pairs as usize + due.len() > room {
            break;
        }
        for signature in due {
            words[2 * answer.pairs as usize] = u32::from(signature);
            words[2 * answer.pairs as usize + 1] = flow.offset as u32 + 1;
            answer.pairs += 1;
        }
        flow = Flow { frontier: next, offset: flow.offset + 1, rows: flow.rows + rows };
        answer.bytes += 1;
    }
    answer.all = answer.refusal == 0 && answer.bytes == piece.len() as u64;
    *record = flow.write();
    answer
}

/// The automaton and the flow of a feed, or the first of the rules 1 to 6 that refuses it.
fn ready<'a>(
    list: &'a Result<Automaton, u32>,
    record: &[u8],
    start: u64,
    piece: &[u8],
) -> Result<(&'a Automaton, Flow), u32> {
    let automaton = list.as_ref().map_err(|refusal| *refusal)?;
    Ok((automaton, flow_for(automaton, record, start, piece)?))
}

pub fn feed(
    list: &Result<Automaton, u32>,
    record: &mut Vec<u8>,
    start: u64,
    piece: &[u8],
    words: &mut [u32],
) -> Answer {
    let (automaton, flow) = match ready(list, record, start, piece) {
        Ok(ready) => ready,
        Err(refusal) => return refused(refusal),
    };
    run(automaton, flow, piece, words, record, |frontier, byte| {
        Some((automaton.step(frontier, byte), frontier.len() as u64))
    })
}

pub fn split_feed(
    list: &Result<Automaton, u32>,
    bound: u64,
    table: &Option<Table>,
    record: &mut Vec<u8>,
    start: u64,
    piece: &[u8],
    words: &mut [u32],
) -> Answer {
    let (automaton, flow) = match ready(list, record, start, piece) {
        Ok(ready) => ready,
        Err(refusal) => return refused(refusal),
    };
    if !(1..=MOST_BOUND).contains(&bound) {
        return refused(7);
    }
    let table = match table {
        Some(table) => table,
        None => return refused(8),
    };
    if table.unordered() {
        return refused(9);
    }
    run(automaton, flow, piece, words, record, |frontier, byte| {
        let taken = table.splits[*table.first.get(frontier)?].taken();
        if taken.len() as u64 > bound || taken.iter().any(|&slot| usize::from(slot) >= table.parts.len()) {
            return None;
        }
        let next = taken.iter().flat_map(|&slot| table.row(usize::from(slot), byte)).copied().collect();
        Some((next, taken.len() as u64))
    })
}
