//! The index by places: its filler, the feed that runs it, and splits with their index straight from a list; ordinary Rust of them, the proved functions, and
//! the rows that compare them. The loops are those of the proved library: turns of four bytes, the bytes that tell between them, and blocks of 32 bytes passed
//! where a feed stays at a place.
use crate::flow::{read_flow, refused, tell, Fed};
use crate::inputs;
use crate::join;
use crate::later::{chunks, chunks_mut};
use crate::list::{
    self, accepted, accepting, exchanged, from, named, records, start_set, target, Record, EDGE, EITHER_CASE,
};
use crate::row::{number, Both, Buffers, Call, Row, Side};
use crate::sets::{put_set, set_at, sets, Set, Signatures, States};
use crate::sizes::{
    BYTE_VALUES, ENTRY_SIZE, FLOW_SIZE, MOST_INDEX, MOST_RECORDS, MOST_SPLITS, NOTE_AT, PREPARE_INDEX, PREPARE_SPLITS,
    SET_SIZE, SLOTS, SPLIT_SIZE, TELLING, TOLD_AT, UNUSED,
};
use crate::table::{self, check_sizes, classes_of, place_of, slots, split_set, splits, Split, Table, HALTED};

/// What a prepared feed answers: as every feed, and the split where the flow then stands.
#[derive(Clone, Copy, Debug, PartialEq, Eq)]
struct Stood {
    fed: Fed,
    split: u32,
}

/// What preparing answers: a refusal, or the bytes used of the splits and of the index.
#[derive(Clone, Copy, Debug, Default, PartialEq, Eq)]
struct Made {
    refusal: u32,
    splits: usize,
    index: usize,
}

type Entry = [u8; ENTRY_SIZE];

/// Where the entry of a split stands; so many bytes has the index of as many splits.
fn place(split: usize) -> usize {
    SET_SIZE + ENTRY_SIZE * split
}

// ---- what an index says

/// The whole entry at a place.
fn entry(index: &[u8], place: usize) -> Option<&Entry> {
    let bytes = index.get(place..place + ENTRY_SIZE)?;
    Some(bytes.try_into().expect("an entry's bytes"))
}

fn word(entry: &Entry, byte: u8) -> usize {
    let words = chunks::<_, 4>(&entry[..TOLD_AT]);
    u32::from_le_bytes(words[usize::from(byte)]) as usize
}

fn cost(entry: &Entry) -> u64 {
    entry[NOTE_AT].into()
}

fn signatures(entry: &Entry) -> Signatures {
    let words = chunks::<_, 8>(&entry[TOLD_AT..NOTE_AT]);
    Set(std::array::from_fn(|i| u64::from_le_bytes(words[i])))
}

// ---- blocks

/// Bytes in a block, and what stands for none of them.
const BLOCK: usize = 32;
const NONE: u8 = 255;

/// Two ranges of bytes: where each begins, and how many more bytes it has.
#[derive(Clone, Copy)]
struct Ranges([(u8, u8); 2]);

/// The first byte of a block that lies in the ranges.
fn first_in(block: &[u8; BLOCK], Ranges([(a, m), (b, n)]): Ranges) -> u8 {
    let mut first = NONE;
    for (i, &x) in (0..).zip(block) {
        let hit = (x.wrapping_sub(a) <= m) | (x.wrapping_sub(b) <= n);
        first = first.min(if hit { i } else { NONE });
    }
    first
}

/// The range from the lowest to the highest byte, counted from the first word's on, whose word is another.
fn range(words: &[[u8; 4]], first: u8, own: u32) -> (u8, u8) {
    let (mut low, mut high) = (NONE, 0u8);
    for (byte, &bytes) in (first..=255).zip(words) {
        let leaves = u32::from_le_bytes(bytes) != own;
        low = low.min(if leaves { byte } else { NONE });
        high = high.max(if leaves { byte } else { 0 });
    }
    (low, high.saturating_sub(low))
}

/// Ranges in which each byte lies that leaves an entry: one for the bytes below 64, one for the others.
fn leaving(entry: &Entry, own: u32) -> Ranges {
    let (low, high) = chunks::<_, 4>(&entry[..TOLD_AT]).split_at(64);
    Ranges([range(low, 0, own), range(high, 64, own)])
}

// ---- the loops

/// The bytes of a stretch, the fewest that blocks are tried on, a skip that gives little, and how many such are enough.
const STRETCH: usize = 64;
const WORTH: usize = 256;
const LITTLE: usize = 8;
const TRIES: usize = 4;

/// Where a feed stands in its piece: the place, its entry, and the bytes, pairs and rows so far.
#[derive(Clone, Copy)]
struct Stand<'a> {
    place: usize,
    here: Option<&'a Entry>,
    bytes: usize,
    pairs: usize,
    rows: u64,
}

/// How far turns led: so many bytes, a place and its entry, and the rows of these bytes.
struct Led<'a> {
    bytes: usize,
    place: usize,
    here: &'a Entry,
    rows: u64,
}

/// Goes on by four bytes at a time while words lead to entries and tell nothing.
fn turns<'a>(index: &'a [u8], piece: &[u8], place: usize, here: &'a Entry) -> Led<'a> {
    let mut led = Led { bytes: 0, place, here, rows: 0 };
    for four in chunks::<_, 4>(piece) {
        for &byte in four {
            let next = word(led.here, byte);
            let there = match entry(index, next) {
                Some(there) => there,
                None => return led,
            };
            led.rows += cost(led.here);
            led.bytes += 1;
            led.place = next;
            led.here = there;
        }
    }
    led
}

/// Goes on to the end of a stretch; answers whether the feed goes on behind it.
fn stretch<'a>(
    index: &'a [u8],
    piece: &[u8],
    offset: u64,
    stop: usize,
    mut s: Stand<'a>,
    room: &mut [[u32; 2]],
) -> (bool, Stand<'a>) {
    let mut here = match s.here {
        Some(here) => here,
        None => return (false, s),
    };
    while s.bytes < stop {
        let led = turns(index, &piece[s.bytes..stop], s.place, here);
        here = led.here;
        s = Stand { place: led.place, here: Some(here), bytes: s.bytes + led.bytes, rows: s.rows + led.rows, ..s };
        if s.bytes == stop {
            break;
        }
        let next = word(here, piece[s.bytes]);
        let there = entry(index, next % TELLING);
        if let (true, Some(there)) = (next >= TELLING, there) {
            match tell(&mut room[s.pairs..], signatures(there), offset + s.bytes as u64 + 1) {
                Some(count) => s.pairs += count,
                None => return (false, s),
            }
        }
        s = Stand { place: next % TELLING, here: there, bytes: s.bytes + 1, rows: s.rows + cost(here), ..s };
        match there {
            Some(there) => here = there,
            None => return (false, s),
        }
    }
    (true, s)
}

/// How many bytes stay, as far as blocks show.
fn skip(piece: &[u8], ranges: Ranges) -> usize {
    let mut bytes = 0;
    for block in chunks::<_, BLOCK>(piece) {
        match first_in(block, ranges) {
            NONE => bytes += BLOCK,
            first => return bytes + usize::from(first),
        }
    }
    bytes
}

/// Skips blocks at an entry, and goes on where a byte leaves and the next one comes back.
fn calm(index: &[u8], piece: &[u8], here: &Entry, ranges: Ranges, s: &mut Stand) {
    let mut left = 1;
    while piece.len() - s.bytes >= BLOCK + 2 {
        let n = skip(&piece[s.bytes..], ranges);
        s.bytes += n;
        s.rows += n as u64 * cost(here);
        left = if n >= LITTLE { TRIES } else { left - 1 };
        if left == 0 {
            return;
        }
        let (leaves, comes) = match piece[s.bytes..] {
            [leaves, comes, ..] => (leaves, comes),
            _ => return,
        };
        match entry(index, word(here, leaves)) {
            Some(there) if word(there, comes) == s.place => s.rows += cost(here) + cost(there),
            _ => return,
        }
        s.bytes += 2;
    }
}

/// Runs over the bytes whose pairs all fit.
fn run<'a>(index: &'a [u8], piece: &[u8], offset: u64, mut s: Stand<'a>, room: &mut [[u32; 2]]) -> Stand<'a> {
    let mut known = None;
    while s.bytes < piece.len() {
        let (place, stop) = (s.place, piece.len().min(s.bytes + STRETCH));
        let (on, after) = stretch(index, piece, offset, stop, s, room);
        s = after;
        if !on {
            return s;
        }
        if let (true, Some(here)) = (s.place == place && piece.len() - s.bytes >= WORTH, s.here) {
            let ranges = match known {
                Some((at, ranges)) if at == place => ranges,
                _ => leaving(here, place as u32),
            };
            known = Some((place, ranges));
            calm(index, piece, here, ranges, &mut s);
        }
    }
    s
}

// ---- the feed

/// The prepared feed: rules 4 to 6 and 8, then 14 per byte.
fn feed(
    splits_bytes: &[u8],
    index: &[u8],
    hint: u32,
    record: &mut [u8],
    start: u64,
    piece: &[u8],
    pairs: &mut [u32],
) -> Stood {
    let splits = splits(splits_bytes);
    let good = (1..=MOST_SPLITS).contains(&splits.len())
        && splits_bytes.len() % SPLIT_SIZE == 0
        && index.len() == place(splits.len());
    let hinted = splits.get(hint as usize).filter(|_| good);
    let held = hinted.map_or(false, |split| record.get(..SET_SIZE) == Some(split_set(split)));
    let known = if held { index[place(hint as usize) + NOTE_AT + 1] != 0 } else { within(record, index) };
    let flow = match read_flow(known, record, start, piece) {
        Ok(flow) if good => flow,
        Ok(_) => return Stood { fed: refused(8), split: hint },
        Err(refusal) => return Stood { fed: refused(refusal), split: hint },
    };
    let first = if held { hint as usize } else { place_of(splits, flow.frontier).unwrap_or(splits.len()) };
    let begun = Stand { place: place(first), here: entry(index, place(first)), bytes: 0, pairs: 0, rows: 0 };
    let s = run(index, piece, flow.offset, begun, chunks_mut(pairs));
    let split = s.here.map_or(splits.len(), |_| s.place.saturating_sub(SET_SIZE) / ENTRY_SIZE);
    let record: &mut [u8; FLOW_SIZE] = record.try_into().expect("a record's bytes");
    if s.bytes > 0 && split != first {
        let set = splits.get(split).map_or([0; SET_SIZE], |split| *split_set(split));
        record[..SET_SIZE].copy_from_slice(&set);
    }
    record[SET_SIZE..][..4].copy_from_slice(&((flow.offset + s.bytes as u64) as u32).to_le_bytes());
    record[SET_SIZE + 8..].copy_from_slice(&(flow.rows + s.rows).to_le_bytes());
    let all = s.bytes == piece.len();
    let refusal = if s.here.is_none() && !all { HALTED } else { 0 };
    Stood { fed: Fed { refusal, bytes: s.bytes, pairs: s.pairs, all }, split: split as u32 }
}

/// Whether the record's frontier lies in the set that the index begins with, where there is one.
fn within(record: &[u8], index: &[u8]) -> bool {
    match (record.get(..SET_SIZE), index.get(..SET_SIZE)) {
        (Some(frontier), Some(named)) => frontier.iter().zip(named).all(|(&f, &n)| f & !n == 0),
        _ => true,
    }
}

// ---- the filler

/// The sets that the bytes lead to from a set, by one walk of the list.
fn steps(list: &[Record], set: States, led: &mut [States; BYTE_VALUES]) {
    *led = [States::EMPTY; BYTE_VALUES];
    for record in list.iter().filter(|record| record[0] == EDGE) {
        let [_, low, high, case, ..] = *record;
        if !set.has(from(record)) {
            continue;
        }
        for byte in low..=high {
            led[usize::from(byte)].insert(target(record));
            if case == EITHER_CASE {
                led[usize::from(exchanged(byte))].insert(target(record));
            }
        }
    }
}

/// Writes the states that the list names and an entry for each split, at which a byte costs what is said. `low` has for each byte the lowest of its class.
fn fill_entries(
    list: &[Record],
    low: &[u8; BYTE_VALUES],
    splits: &[Split],
    cost: impl Fn(&Split) -> u8,
    index: &mut [u8],
) {
    let (names, accepts) = (named(list), accepting(list));
    let (set, entries) = index.split_at_mut(SET_SIZE);
    set.copy_from_slice(&names.bytes());
    let mut led = [States::EMPTY; BYTE_VALUES];
    for (split, entry) in splits.iter().zip(chunks_mut::<_, ENTRY_SIZE>(entries)) {
        let from = States::read(split_set(split));
        steps(list, from, &mut led);
        *entry = [0; ENTRY_SIZE];
        for byte in 0..BYTE_VALUES {
            let first = usize::from(low[byte]);
            if first < byte {
                entry.copy_within(4 * first..4 * first + 4, 4 * byte);
                continue;
            }
            let to = place(place_of(splits, led[byte]).unwrap_or(splits.len()));
            let tells = led[byte].meets(accepts);
            let word = to + if tells { TELLING } else { 0 };
            entry[4 * byte..][..4].copy_from_slice(&(word as u32).to_le_bytes());
        }
        for (out, word) in entry[TOLD_AT..NOTE_AT].chunks_exact_mut(8).zip(accepted(list, from).0) {
            out.copy_from_slice(&word.to_le_bytes());
        }
        entry[NOTE_AT] = cost(split);
        entry[NOTE_AT + 1] = from.within(names).into();
    }
}

/// For each byte the lowest of its class.
fn lowest(classes: &[u8]) -> [u8; BYTE_VALUES] {
    let mut first = [None; BYTE_VALUES];
    std::array::from_fn(|byte| *first[usize::from(classes[byte])].get_or_insert(byte as u8))
}

/// The filler: the rules of the table check, where 8 covers the index's length; then an entry for each split.
fn fill(list: &[u8], bound: u64, table: &Table, index: &mut [u8]) -> u32 {
    let refusal = match list::check(list) {
        0 => check_sizes(bound, table),
        refusal => refusal,
    };
    if refusal != 0 {
        return refusal;
    }
    let splits = splits(table.splits);
    if index.len() != place(splits.len()) {
        return 8;
    }
    let refusal = table::check(list, bound, table);
    if refusal != 0 {
        return refusal;
    }
    let taken = |split: &Split| slots(split).iter().take_while(|&&slot| slot != UNUSED).count() as u8;
    fill_entries(records(list), &lowest(table.classes), splits, taken, index);
    0
}

// ---- straight from a list

/// All sets that can be reached: as they are found in `queue`, rising in `parts`. Nothing where there are too many.
fn search(list: &[Record], low: &[u8; BYTE_VALUES], queue: &mut [u8], parts: &mut [u8]) -> Option<usize> {
    let begin = start_set(list);
    put_set(queue, 0, begin);
    put_set(parts, 0, begin);
    let (mut count, mut next) = (1, 0);
    let mut led = [States::EMPTY; BYTE_VALUES];
    while next < count {
        steps(list, States::read(set_at(queue, next)), &mut led);
        for byte in (0..BYTE_VALUES).filter(|&byte| usize::from(low[byte]) == byte) {
            if let Err(at) = sets(parts)[..count].binary_search(&led[byte].bytes()) {
                if count == MOST_SPLITS {
                    return None;
                }
                put_set(queue, count, led[byte]);
                parts.copy_within(SET_SIZE * at..SET_SIZE * count, SET_SIZE * (at + 1));
                put_set(parts, at, led[byte]);
                count += 1;
            }
        }
        next += 1;
    }
    Some(count)
}

/// Splits and their index straight from a list: rules 1 to 3, 17, 16.
fn prepare(list: &[u8], lent: &mut [u8], index: &mut [u8]) -> Made {
    let refused = |refusal| Made { refusal, ..Made::default() };
    let refusal = list::check(list);
    if refusal != 0 {
        return refused(refusal);
    }
    if lent.len() < SPLIT_SIZE * MOST_SPLITS || index.len() < MOST_INDEX {
        return refused(17);
    }
    let list = records(list);
    let low = lowest(&classes_of(list).0);
    let count = match search(list, &low, lent, index) {
        Some(count) => count,
        None => {
            lent.fill(0);
            index.fill(0);
            return refused(16);
        }
    };
    for (split, set) in chunks_mut::<_, SPLIT_SIZE>(lent).iter_mut().zip(&sets(index)[..count]) {
        split[..SET_SIZE].copy_from_slice(set);
        split[SET_SIZE..].fill(255);
    }
    let (used, rest) = lent.split_at_mut(SPLIT_SIZE * count);
    rest.fill(0);
    index[place(count)..].fill(0);
    fill_entries(list, &low, splits(used), |_| 1, index);
    Made { refusal: 0, splits: used.len(), index: place(count) }
}

// ---- the proved functions

mod proved {
    use super::{Made, Stood};
    use crate::call::call;
    use crate::flow::Fed;
    use crate::table::Table;

    pub fn fill(list: &[u8], bound: u64, table: &Table, index: &mut [u8]) -> u32 {
        call!(watch_fill_index(&list, bound, &table.classes, &table.parts, &table.rows, &table.splits, &mut index))
    }

    pub fn feed(
        splits: &[u8],
        index: &[u8],
        split: u32,
        flow: &mut [u8],
        start: u64,
        piece: &[u8],
        pairs: &mut [u32],
    ) -> Stood {
        let stood = call!(watch_prepared_feed(&splits, &index, split, &mut flow, start, &piece, &mut pairs));
        let fed =
            Fed { refusal: stood.refusal, bytes: stood.bytes as usize, pairs: stood.pairs as usize, all: stood.all };
        Stood { fed, split: stood.split }
    }

    pub fn prepare(list: &[u8], splits: &mut [u8], index: &mut [u8]) -> Made {
        let made = call!(watch_prepare(&list, &mut splits, &mut index));
        Made { refusal: made.refusal, splits: made.splits as usize, index: made.index as usize }
    }
}

// ---- the rows

const FILL: Both<fn(&[u8], u64, &Table, &mut [u8]) -> u32> = Both([proved::fill, fill]);
type Feed = fn(&[u8], &[u8], u32, &mut [u8], u64, &[u8], &mut [u32]) -> Stood;
const FEED: Both<Feed> = Both([proved::feed, feed]);
const PREPARE: Both<fn(&[u8], &mut [u8], &mut [u8]) -> Made> = Both([proved::prepare, prepare]);

/// The bytes of a table's index.
fn index_bytes(table: &inputs::Table) -> usize {
    place(table.splits.len() / SPLIT_SIZE)
}

/// The filling of a table's index.
struct Filled {
    list: Vec<u8>,
    bound: u64,
    table: inputs::Table,
}

impl Call for Filled {
    fn run(&self, side: Side, buffers: &mut Buffers) -> Fed {
        refused(FILL.of(side)(&self.list, self.bound, &self.table.lent(), &mut buffers.index))
    }

    fn lend(&self, buffers: &mut Buffers) {
        buffers.index = vec![Buffers::BEFORE; index_bytes(&self.table)];
    }
}

/// Splits and their index straight from a list.
struct Prepared(Vec<u8>);

impl Call for Prepared {
    fn run(&self, side: Side, buffers: &mut Buffers) -> Fed {
        let [splits, index, ..] = &mut buffers.lists;
        let made = PREPARE.of(side)(&self.0, splits, index);
        Fed { refusal: made.refusal, bytes: made.splits, pairs: made.index, all: false }
    }

    fn lend(&self, buffers: &mut Buffers) {
        buffers.lend_lists([PREPARE_SPLITS, PREPARE_INDEX, 0, 0]);
    }
}

/// The prepared feed of a piece, from a record on that stands at a split.
struct Indexed {
    splits: Vec<u8>,
    index: Vec<u8>,
    split: u32,
    flow: [u8; FLOW_SIZE],
    piece: Vec<u8>,
}

impl Indexed {
    /// From a frontier on, by the index of a table for a list, which ordinary Rust fills.
    fn new(list: &[u8], bound: u64, table: inputs::Table, first: inputs::Bytes, piece: Vec<u8>) -> Indexed {
        let mut index = vec![0; index_bytes(&table)];
        assert_eq!(fill(list, bound, &table.lent(), &mut index), 0, "the index is filled");
        let flow = inputs::flow_at(first);
        let mut splits = table.splits.chunks(SPLIT_SIZE);
        let split = splits.position(|split| split[..SET_SIZE] == flow[..SET_SIZE]);
        let split = split.expect("the frontier is a split's") as u32;
        Indexed { splits: table.splits, index, split, flow, piece }
    }
}

impl Call for Indexed {
    fn run(&self, side: Side, buffers: &mut Buffers) -> Fed {
        buffers.flow = self.flow;
        let (record, pairs) = (&mut buffers.flow, &mut buffers.pairs);
        FEED.of(side)(&self.splits, &self.index, self.split, record, 0, &self.piece, pairs).fed
    }

    fn bytes(&self) -> Option<usize> {
        Some(self.piece.len())
    }
}

/// Lists of signatures, and traffic of four kinds for each.
struct Traffic {
    name: &'static str,
    list: &'static [u8],
    kinds: [(&'static str, &'static [u8]); 4],
}

macro_rules! traffic {
    ($name:literal) => {
        Traffic {
            name: $name,
            list: include_bytes!(concat!("../traffic/", $name, ".list")),
            kinds: [
                ("feeder", include_bytes!(concat!("../traffic/", $name, "-feeder"))),
                ("dense", include_bytes!(concat!("../traffic/", $name, "-dense"))),
                ("adversarial", include_bytes!(concat!("../traffic/", $name, "-adversarial"))),
                ("quiet", include_bytes!(concat!("../traffic/", $name, "-quiet"))),
            ],
        }
    };
}

const TRAFFIC: [Traffic; 4] = [traffic!("plain4"), traffic!("plain64"), traffic!("gap4"), traffic!("gap8b2")];

/// The lengths of pieces that traffic is cut into.
const PIECES: [usize; 6] = [1, 16, 64, 256, 1500, 4096];

/// Traffic that is fed in pieces, each with the split that the one before answered.
struct Line {
    splits: Vec<u8>,
    index: Vec<u8>,
    first: [u8; FLOW_SIZE],
    bytes: &'static [u8],
    piece: usize,
}

impl Line {
    fn new(list: &[u8], bytes: &'static [u8], piece: usize) -> Line {
        let (mut splits, mut index) = (vec![0; SPLIT_SIZE * MOST_SPLITS], vec![0; MOST_INDEX]);
        let made = prepare(list, &mut splits, &mut index);
        assert_eq!(made.refusal, 0, "a list that can be prepared");
        splits.truncate(made.splits);
        index.truncate(made.index);
        let first = inputs::flow_at(start_set(records(list)).bytes());
        Line { splits, index, first, bytes, piece }
    }
}

impl Call for Line {
    /// Feeds the whole traffic; answers the pairs, and leaves the record.
    fn run(&self, side: Side, buffers: &mut Buffers) -> Fed {
        let feed = FEED.of(side);
        let (flow, pairs) = (&mut buffers.flow, &mut buffers.pairs);
        *flow = self.first;
        let (mut at, mut told, mut split) = (0, 0, 0);
        while at < self.bytes.len() {
            let end = self.bytes.len().min(at + self.piece);
            let stood = feed(&self.splits, &self.index, split, flow, at as u64, &self.bytes[at..end], pairs);
            assert_eq!(stood.fed.refusal, 0, "no split is left");
            at += stood.fed.bytes;
            told += stood.fed.pairs;
            split = stood.split;
        }
        Fed { refusal: 0, bytes: at, pairs: told, all: true }
    }

    fn bytes(&self) -> Option<usize> {
        Some(self.bytes.len())
    }
}

/// What a row of the busy table feeds: its name, where the flow begins, and the bytes.
type Kind = (&'static str, fn() -> inputs::Bytes, fn(usize) -> Vec<u8>);

/// One byte of the order that is told leaves a split and tells nothing: the one that tells is fed where the order has begun.
const ONE: [Kind; 3] = [
    (inputs::QUIET, inputs::busy_start, inputs::quiet_bytes),
    ("a byte that leaves", inputs::busy_start, inputs::busy_telling),
    ("a byte that tells two pairs", inputs::busy_begun, inputs::busy_end),
];
const MORE: [Kind; 2] = [
    (inputs::QUIET, inputs::busy_start, inputs::quiet_bytes),
    (inputs::TELLING, inputs::busy_start, inputs::busy_telling),
];

/// The rows of the prepared feed on tables.
fn table_feeds() -> Vec<Row> {
    let mut rows = Vec::new();
    for splits in [16, 256, MOST_SPLITS] {
        for (bytes, turn, kinds) in [(1, 64, &ONE[..]), (64, 32, &MORE), (4096, 8, &MORE)] {
            for &(kind, first, make) in kinds {
                let pieces = inputs::pieces(bytes);
                let name = format!("prepared feed, {} splits, pieces of {pieces}, {kind}", number(splits));
                rows.push(Row::new(name, turn, move || {
                    let (list, bound) = (inputs::busy_list(), SLOTS as u64);
                    let table = inputs::busy_table(splits, bound);
                    Indexed::new(&list, bound, table, first(), make(bytes))
                }));
            }
        }
    }
    let full = number(MOST_RECORDS);
    for (kind, bytes) in inputs::TRAFFIC {
        let (splits, bound) = (inputs::ORDERS_SPLITS, inputs::ORDERS_BOUND);
        let name = format!("prepared feed, {splits} splits, bound {bound}, {full} records, {kind}");
        rows.push(Row::new(name, 8, move || {
            let (list, table) = (inputs::orders_list(MOST_RECORDS), inputs::orders_table(MOST_RECORDS));
            Indexed::new(&list, bound, table, inputs::first(1), bytes(4096))
        }));
    }
    rows
}

pub fn rows() -> Vec<Row> {
    let mut rows = table_feeds();
    for set in TRAFFIC {
        for (kind, bytes) in set.kinds {
            for piece in PIECES {
                let name = format!("prepared feed, {}, {kind}, pieces of {}", set.name, number(piece));
                rows.push(Row::new(name, 1, move || Line::new(set.list, bytes, piece)));
            }
        }
    }
    let reached: [(&str, fn() -> Vec<u8>); 2] = [
        ("1,024 sets, 300 records", || inputs::reaching_list(300, 10, 64)),
        ("4,096 sets, 300 records", || inputs::reaching_list(300, 12, 64)),
    ];
    for (what, list) in join::LISTS.into_iter().chain(reached) {
        rows.push(Row::new(format!("preparing, {what}"), 1, move || Prepared(list())));
    }
    for splits in [16, MOST_SPLITS] {
        let name = format!("filling an index, {} splits, 34 records", number(splits));
        rows.push(Row::new(name, 1, move || {
            let bound = SLOTS as u64;
            Filled { list: inputs::busy_list(), bound, table: inputs::busy_table(splits, bound) }
        }));
    }
    rows
}
