//! The list: its check, opening and the plain feed; ordinary Rust of them, the proved functions, and the rows that compare them.
use crate::flow::{read_flow, refused, tell, write_flow, Fed, Flow};
use crate::inputs::{self, TRAFFIC};
use crate::later::{chunks, chunks_mut};
use crate::row::{number, Both, Buffers, Call, Row, Side};
use crate::sets::{Signatures, States};
use crate::sizes::{FLOW_SIZE, MOST_RECORDS, RECORD_SIZE, SET_SIZE, SIGNATURES, STATES};

pub type Record = [u8; RECORD_SIZE];
pub const EDGE: u8 = 1;
pub const START: u8 = 2;
pub const ACCEPT: u8 = 3;
pub const EITHER_CASE: u8 = 1;

/// The records of a list.
pub fn records(list: &[u8]) -> &[Record] {
    chunks(list)
}

/// The state that a record leaves or names.
pub fn from(record: &Record) -> u16 {
    u16::from_le_bytes([record[4], record[5]])
}

/// The state that a record leads to, or the signature that it gives.
pub fn target(record: &Record) -> u16 {
    u16::from_le_bytes([record[6], record[7]])
}

fn good_record(record: &Record) -> bool {
    let (from, target) = (usize::from(from(record)), usize::from(target(record)));
    match record {
        [EDGE, low, high, 0 | EITHER_CASE, ..] => low <= high && from < STATES && target < STATES,
        [START, 0, 0, 0, 0, 0, ..] => target < STATES,
        [ACCEPT, 0, 0, 0, ..] => from < STATES && target < SIGNATURES,
        _ => false,
    }
}

/// Rules 1 to 3.
pub fn check(list: &[u8]) -> u32 {
    if list.is_empty() || list.len() > RECORD_SIZE * MOST_RECORDS || list.len() % RECORD_SIZE != 0 {
        return 1;
    }
    if !records(list).iter().all(good_record) {
        return 2;
    }
    if !records(list).iter().any(|record| record[0] == START) {
        return 3;
    }
    0
}

/// The frontier of a record that is long enough to hold one.
fn frontier_of(record: &[u8]) -> States {
    match record.get(..SET_SIZE) {
        Some(set) => States::read(set.try_into().expect("a set's bytes")),
        None => States::EMPTY,
    }
}

/// The list check, and whether the list names every state of the record's frontier. Once all are found it seeks no more.
pub fn survey(list: &[u8], record: &[u8]) -> Result<bool, u32> {
    if list.is_empty() || list.len() > RECORD_SIZE * MOST_RECORDS || list.len() % RECORD_SIZE != 0 {
        return Err(1);
    }
    let frontier = frontier_of(record);
    let list = records(list);
    let (mut named, mut sought) = (States::EMPTY, true);
    for block in list.chunks(64) {
        for record in block {
            if !good_record(record) {
                return Err(2);
            }
            if sought && record[0] != START {
                named.insert(from(record));
            }
            if sought && record[0] != ACCEPT {
                named.insert(target(record));
            }
        }
        sought = sought && !frontier.within(named);
    }
    match list.iter().any(|record| record[0] == START) {
        true => Ok(!sought),
        false => Err(3),
    }
}

pub fn start_set(list: &[Record]) -> States {
    let mut all = States::EMPTY;
    for record in list {
        if record[0] == START {
            all.insert(target(record));
        }
    }
    all
}

/// The byte with ASCII letter case exchanged.
pub fn exchanged(byte: u8) -> u8 {
    match byte {
        b'A'..=b'Z' => byte + 32,
        b'a'..=b'z' => byte - 32,
        _ => byte,
    }
}

/// The frontier after a byte, by one walk of the list: the targets of the edges that the byte takes and whose state is in the frontier. The
/// first test costs least, and at a small frontier few records pass it: has some state of the frontier the record's place in a word? The
/// second tests the range at once: of a checked list low is at most high. Whether an edge is for either case is looked at only where the byte
/// itself is outside its range.
pub fn step(list: &[Record], frontier: States, byte: u8) -> States {
    let places = frontier.0.into_iter().fold(0, |all, word| all | word);
    let other = exchanged(byte);
    let mut next = States::EMPTY;
    for record in list {
        let (state, [_, low, high, case, ..]) = (from(record), record);
        let takes = |byte: u8| byte.wrapping_sub(*low) <= high.wrapping_sub(*low);
        if places >> (state % 64) & 1 == 1
            && (takes(byte) || *case == EITHER_CASE && takes(other))
            && record[0] == EDGE
            && frontier.has(state)
        {
            next.insert(target(record));
        }
    }
    next
}

/// Whether a record is an edge that a byte takes.
fn taken(record: &Record, byte: u8) -> bool {
    let [kind, low, high, case, ..] = record;
    let takes = |byte: u8| byte.wrapping_sub(*low) <= high.wrapping_sub(*low);
    *kind == EDGE && (takes(byte) || *case == EITHER_CASE && takes(exchanged(byte)))
}

/// For each byte one that is not above it and takes the same edges. Which two are compared is guessed by keys, to which the weights of the edges are added.
pub fn alikes(list: &[Record], mut keys: [u64; 256]) -> [u8; 256] {
    let (mut marks, mut weight) = ([0u64; 257], 1u64);
    for record in list.iter().filter(|record| record[0] == EDGE) {
        weight = weight.wrapping_mul(6_364_136_223_846_793_005).wrapping_add(1);
        let (low, high) = (usize::from(record[1]), usize::from(record[2]));
        marks[low] = marks[low].wrapping_add(weight);
        marks[high + 1] = marks[high + 1].wrapping_sub(weight);
        if record[3] == EITHER_CASE {
            let inside = |byte: &u8| (low..=high).contains(&usize::from(*byte));
            let letters = (b'A'..=b'Z').chain(b'a'..=b'z');
            for byte in letters.filter(|byte| !inside(byte) && inside(&exchanged(*byte))) {
                let key = &mut keys[usize::from(byte)];
                *key = key.wrapping_add(weight);
            }
        }
    }
    let (mut all, mut lowest) = (0u64, std::collections::HashMap::new());
    std::array::from_fn(|c| {
        all = all.wrapping_add(marks[c]);
        let byte = *lowest.entry(keys[c].wrapping_add(all)).or_insert(c as u8);
        match list.iter().all(|record| taken(record, byte) == taken(record, c as u8)) {
            true => byte,
            false => c as u8,
        }
    })
}

/// The states that some accept record names.
pub fn accepting(list: &[Record]) -> States {
    let mut all = States::EMPTY;
    for record in list {
        if record[0] == ACCEPT {
            all.insert(from(record));
        }
    }
    all
}

/// The signatures that the frontier accepts, by one walk of the list.
pub fn accepted(list: &[Record], frontier: States) -> Signatures {
    let mut all = Signatures::EMPTY;
    for record in list.iter().filter(|record| record[0] == ACCEPT) {
        if frontier.has(from(record)) {
            all.insert(target(record));
        }
    }
    all
}

/// The states that some record names.
pub fn named(list: &[Record]) -> States {
    let mut all = States::EMPTY;
    for record in list {
        if record[0] != START {
            all.insert(from(record));
        }
        if record[0] != ACCEPT {
            all.insert(target(record));
        }
    }
    all
}

/// Opens a flow: rules 1 to 4, and 15 where the pairs of offset 0 do not fit.
pub fn open(list: &[u8], record: &mut [u8], words: &mut [u32]) -> Fed {
    let refusal = check(list);
    if refusal != 0 {
        return refused(refusal);
    }
    if record.len() != FLOW_SIZE {
        return refused(4);
    }
    let list = records(list);
    let frontier = start_set(list);
    let pairs = match tell(chunks_mut::<_, 2>(words), accepted(list, frontier), 0) {
        Some(pairs) => pairs,
        None => return refused(15),
    };
    let flow = Flow { frontier, offset: 0, rows: 0 };
    write_flow(record, &flow);
    Fed { refusal: 0, bytes: 0, pairs, all: false }
}

/// The plain feed: rules 1 to 6.
pub fn feed(list: &[u8], record: &mut [u8], start: u64, piece: &[u8], pairs: &mut [u32]) -> Fed {
    let known = match survey(list, record) {
        Ok(known) => known,
        Err(refusal) => return refused(refusal),
    };
    let mut flow = match read_flow(known, record, start, piece) {
        Ok(flow) => flow,
        Err(refusal) => return refused(refusal),
    };
    let list = records(list);
    let accepting = accepting(list);
    let room = chunks_mut::<_, 2>(pairs);
    let (mut bytes, mut told) = (0, 0);
    for &byte in piece {
        let next = step(list, flow.frontier, byte);
        if next.meets(accepting) {
            let signatures = accepted(list, next);
            match tell(&mut room[told..], signatures, flow.offset + 1) {
                Some(count) => told += count,
                None => break,
            }
        }
        bytes += 1;
        flow = Flow { frontier: next, offset: flow.offset + 1, rows: flow.rows + u64::from(flow.frontier.count()) };
    }
    write_flow(record, &flow);
    Fed { refusal: 0, bytes, pairs: told, all: bytes == piece.len() }
}

// ---- the proved functions

mod proved {
    use crate::call::call;
    use crate::flow::Fed;

    pub fn check(list: &[u8]) -> u32 {
        call!(watch_check_list(&list))
    }

    pub fn open(list: &[u8], flow: &mut [u8], pairs: &mut [u32]) -> Fed {
        let opened = call!(watch_open(&list, &mut flow, &mut pairs));
        Fed { refusal: opened.refusal, bytes: 0, pairs: opened.pairs as usize, all: false }
    }

    pub fn feed(list: &[u8], flow: &mut [u8], start: u64, piece: &[u8], pairs: &mut [u32]) -> Fed {
        call!(watch_feed(&list, &mut flow, start, &piece, &mut pairs)).into()
    }
}

// ---- the rows

const CHECK: Both<fn(&[u8]) -> u32> = Both([proved::check, check]);
const OPEN: Both<fn(&[u8], &mut [u8], &mut [u32]) -> Fed> = Both([proved::open, open]);
const FEED: Both<fn(&[u8], &mut [u8], u64, &[u8], &mut [u32]) -> Fed> = Both([proved::feed, feed]);

/// The check of a list.
struct Checked(Vec<u8>);

impl Call for Checked {
    fn run(&self, side: Side, _: &mut Buffers) -> Fed {
        refused(CHECK.of(side)(&self.0))
    }
}

/// The opening of a flow by a list.
struct Opened(Vec<u8>);

impl Call for Opened {
    fn run(&self, side: Side, buffers: &mut Buffers) -> Fed {
        OPEN.of(side)(&self.0, &mut buffers.flow, &mut buffers.pairs)
    }
}

/// The plain feed of a piece by a list, from a record on.
pub struct Plain {
    list: Vec<u8>,
    flow: [u8; FLOW_SIZE],
    piece: Vec<u8>,
}

impl Plain {
    /// From a frontier of the first states on.
    pub fn new(list: Vec<u8>, frontier: usize, piece: Vec<u8>) -> Plain {
        let flow = inputs::flow_at(inputs::first(frontier));
        Plain { list, flow, piece }
    }
}

impl Call for Plain {
    fn run(&self, side: Side, buffers: &mut Buffers) -> Fed {
        buffers.flow = self.flow;
        FEED.of(side)(&self.list, &mut buffers.flow, 0, &self.piece, &mut buffers.pairs)
    }

    fn bytes(&self) -> Option<usize> {
        Some(self.piece.len())
    }
}

/// The rows of the plain feed.
pub fn feeds() -> Vec<Row> {
    let mut rows = vec![
        Row::new("plain feed, 5 records, frontier 1", 8, || Plain::new(inputs::barn_list(), 1, inputs::line(4096))),
        Row::new("the same, a pair at every second byte", 8, || Plain::new(inputs::barn_list(), 1, b"ab".repeat(2048))),
    ];
    // A frontier holds named states alone: the barn list names three.
    for frontier in [1, 3] {
        rows.push(Row::new(format!("plain feed, 5 records, frontier {frontier}, pieces of 1 byte"), 64, move || {
            Plain::new(inputs::barn_list(), frontier, inputs::line(1))
        }));
    }
    for records in [16, 256, MOST_RECORDS] {
        // A frontier lasts where each of its states can have an edge.
        for frontier in [1, 8, 64, STATES].into_iter().filter(|n| *n < records) {
            for (turn, bytes, pieces) in [(2, 512, ""), (16, 1, ", pieces of 1 byte")] {
                rows.push(Row::new(
                    format!("plain feed, {} records, frontier {frontier}{pieces}", number(records)),
                    turn,
                    move || Plain::new(inputs::steady_list(records, frontier), frontier, inputs::line(bytes)),
                ));
            }
        }
    }
    let full = number(MOST_RECORDS);
    for frontier in [8, STATES] {
        rows.push(Row::new(format!("plain feed, {full} records in either case, frontier {frontier}"), 2, move || {
            let list = inputs::either_case(inputs::steady_list(MOST_RECORDS, frontier));
            Plain::new(list, frontier, inputs::line(512))
        }));
    }
    rows.push(Row::new(
        format!("plain feed, {full} records of one letter in either case, the other fed, frontier {STATES}"),
        2,
        || Plain::new(inputs::one_letter_list(b'a'), STATES, b"A".repeat(512)),
    ));
    for records in [318, MOST_RECORDS] {
        for (kind, bytes) in TRAFFIC {
            rows.push(Row::new(format!("plain feed, {} records, {kind}", number(records)), 2, move || {
                Plain::new(inputs::orders_list(records), 1, bytes(1024))
            }));
        }
    }
    rows
}

/// The rows of opening and of the check.
pub fn rows() -> Vec<Row> {
    fn most() -> Vec<u8> {
        inputs::steady_list(MOST_RECORDS, 8)
    }
    let full = number(MOST_RECORDS);
    vec![
        Row::new("opening, 5 records", 64, || Opened(inputs::barn_list())),
        Row::new(format!("opening, {full} records"), 8, || Opened(most())),
        Row::new("list check, 5 records", 64, || Checked(inputs::barn_list())),
        Row::new(format!("list check, {full} records"), 8, || Checked(most())),
    ]
}
