//! The bit matrix: its filler and its feed; ordinary Rust of them, the proved functions, and the rows that compare them.
use crate::flow::{read_flow, refused, tell, write_flow, Fed, Flow};
use crate::inputs::{self, TRAFFIC};
use crate::join;
use crate::later::{chunks, chunks_mut};
use crate::list;
use crate::list::{
    accepted, accepting, exchanged, from, records, survey, target, Plain, Record, EDGE, EITHER_CASE, START,
};
use crate::row::{number, Both, Buffers, Call, Row, Side};
use crate::sets::{sets, States};
use crate::sizes::{BYTE_VALUES, FLOW_SIZE, MOST_RECORDS, ROW_SIZE, SET_SIZE, STATES};

/// The states that have stored sets: those up to the highest that a record names.
fn states(list: &[Record]) -> usize {
    let highest = list.iter().map(|record| match record[0] {
        EDGE => from(record).max(target(record)),
        START => target(record),
        _ => from(record),
    });
    usize::from(highest.max().unwrap_or(0)) + 1
}

/// The same of a list's bytes.
pub fn states_of(list: &[u8]) -> usize {
    states(records(list))
}

/// Writes the matrix of a list: rules 1 to 3 and 8. All sets empty, then each edge puts its target into those that it selects.
pub fn fill(list: &[u8], matrix: &mut [u8]) -> u32 {
    let refusal = list::check(list);
    if refusal != 0 {
        return refusal;
    }
    let list = records(list);
    if matrix.len() != ROW_SIZE * states(list) {
        return 8;
    }
    matrix.fill(0);
    let rows = chunks_mut::<_, BYTE_VALUES>(chunks_mut::<_, SET_SIZE>(matrix));
    for record in list.iter().filter(|record| record[0] == EDGE) {
        let [_, low, high, case, ..] = *record;
        let (to, range) = (usize::from(target(record)), low..=high);
        for (byte, set) in (0..=255u8).zip(&mut rows[usize::from(from(record))]) {
            if range.contains(&byte) || case == EITHER_CASE && range.contains(&exchanged(byte)) {
                set[to / 8] |= 1 << (to % 8);
            }
        }
    }
    0
}

/// The matrix feed: rules 1 to 6 and 8.
pub fn feed(list: &[u8], matrix: &[u8], record: &mut [u8], start: u64, piece: &[u8], pairs: &mut [u32]) -> Fed {
    let known = match survey(list, record) {
        Ok(known) => known,
        Err(refusal) => return refused(refusal),
    };
    let mut flow = match read_flow(known, record, start, piece) {
        Ok(flow) => flow,
        Err(refusal) => return refused(refusal),
    };
    let list = records(list);
    if matrix.len() != ROW_SIZE * states(list) {
        return refused(8);
    }
    let accepting = accepting(list);
    let rows = chunks::<_, BYTE_VALUES>(sets(matrix));
    let room = chunks_mut::<_, 2>(pairs);
    let (mut bytes, mut told) = (0, 0);
    for &byte in piece {
        let mut next = States::EMPTY;
        for state in flow.frontier.members() {
            if let Some(row) = rows.get(usize::from(state)) {
                next = next.union(States::read(&row[usize::from(byte)]));
            }
        }
        if next.meets(accepting) {
            let signatures = accepted(list, next);
            match tell(&mut room[told..], signatures, flow.offset + 1) {
                Some(count) => told += count,
                None => break,
            }
        }
        bytes += 1;
        flow = Flow { frontier: next, offset: flow.offset + 1, rows: flow.rows + u64::from(flow.frontier.count()) };
    }
    write_flow(record, &flow);
    Fed { refusal: 0, bytes, pairs: told, all: bytes == piece.len() }
}

// ---- the proved functions

mod proved {
    use crate::call::call;
    use crate::flow::Fed;

    pub fn fill(list: &[u8], matrix: &mut [u8]) -> u32 {
        call!(watch_fill_matrix(&list, &mut matrix))
    }

    pub fn feed(list: &[u8], matrix: &[u8], record: &mut [u8], start: u64, piece: &[u8], pairs: &mut [u32]) -> Fed {
        call!(watch_matrix_feed(&list, &matrix, &mut record, start, &piece, &mut pairs)).into()
    }
}

// ---- the rows

const FILL: Both<fn(&[u8], &mut [u8]) -> u32> = Both([proved::fill, fill]);
const FEED: Both<fn(&[u8], &[u8], &mut [u8], u64, &[u8], &mut [u32]) -> Fed> = Both([proved::feed, feed]);

/// The filling of a list's matrix.
struct Filled(Vec<u8>);

impl Call for Filled {
    fn run(&self, side: Side, buffers: &mut Buffers) -> Fed {
        refused(FILL.of(side)(&self.0, &mut buffers.matrix))
    }

    fn lend(&self, buffers: &mut Buffers) {
        buffers.matrix = vec![Buffers::BEFORE; ROW_SIZE * states_of(&self.0)];
    }
}

/// The matrix feed of a piece by a list and its matrix, which ordinary Rust fills, from a record on.
struct Matrix {
    list: Vec<u8>,
    matrix: Vec<u8>,
    flow: [u8; FLOW_SIZE],
    piece: Vec<u8>,
}

impl Matrix {
    /// From a frontier of the first states on.
    fn new(list: Vec<u8>, frontier: usize, piece: Vec<u8>) -> Matrix {
        let mut matrix = vec![0; ROW_SIZE * states_of(&list)];
        assert_eq!(fill(&list, &mut matrix), 0, "a matrix");
        let flow = inputs::flow_at(inputs::first(frontier));
        Matrix { list, matrix, flow, piece }
    }
}

impl Call for Matrix {
    fn run(&self, side: Side, buffers: &mut Buffers) -> Fed {
        buffers.flow = self.flow;
        let (list, pairs) = (&self.list, &mut buffers.pairs);
        FEED.of(side)(list, &self.matrix, &mut buffers.flow, 0, &self.piece, pairs)
    }

    fn bytes(&self) -> Option<usize> {
        Some(self.piece.len())
    }
}

/// The states of small lists: a frontier of them all is the worst that a byte can meet.
const SMALL: u16 = 64;

/// The rows: of the same lists the plain feed stands beside it.
pub fn rows() -> Vec<Row> {
    let mut rows = vec![Row::new("matrix feed, 5 records, 3 states, frontier 1", 8, || {
        Matrix::new(inputs::barn_list(), 1, inputs::line(4096))
    })];
    for frontier in [1, 2, 8, SMALL as usize] {
        let list = move || inputs::small_list(300, frontier, SMALL);
        rows.push(Row::new(format!("plain feed, 300 records, 64 states, frontier {frontier}"), 2, move || {
            Plain::new(list(), frontier, inputs::line(512))
        }));
        rows.push(Row::new(format!("matrix feed, 300 records, 64 states, frontier {frontier}"), 4, move || {
            Matrix::new(list(), frontier, inputs::line(2048))
        }));
    }
    rows.push(Row::new("matrix feed, 300 records, 64 states, frontier 2, pieces of 1 byte", 16, || {
        Matrix::new(inputs::small_list(300, 2, SMALL), 2, inputs::line(1))
    }));
    let full = number(MOST_RECORDS);
    for frontier in [1, 8, 64, STATES] {
        rows.push(Row::new(format!("matrix feed, {full} records, 1,024 states, frontier {frontier}"), 2, move || {
            Matrix::new(inputs::steady_list(MOST_RECORDS, frontier), frontier, inputs::line(512))
        }));
    }
    for records in [318, MOST_RECORDS] {
        for (kind, bytes) in TRAFFIC {
            rows.push(Row::new(format!("matrix feed, {} records, {kind}", number(records)), 2, move || {
                Matrix::new(inputs::orders_list(records), 1, bytes(4096))
            }));
        }
    }
    for (what, list) in join::LISTS {
        for (kind, bytes) in [("a feeder's line", join::FEEDER), ("many pairs", join::DENSE)] {
            rows.push(Row::new(format!("plain feed, {what}, {kind}"), 1, move || {
                Plain::new(list(), 1, bytes[..1024].to_vec())
            }));
            rows.push(Row::new(format!("matrix feed, {what}, {kind}"), 2, move || {
                Matrix::new(list(), 1, bytes[..4096].to_vec())
            }));
        }
    }
    let fillings: [(&str, fn() -> Vec<u8>); 3] = [
        ("5 records, 3 states", inputs::barn_list),
        ("300 records, 64 states", || inputs::small_list(300, 2, SMALL)),
        ("8,192 records, 1,024 states", || inputs::steady_list(MOST_RECORDS, 8)),
    ];
    for (what, list) in fillings {
        rows.push(Row::new(format!("filling a matrix, {what}"), 1, move || Filled(list())));
    }
    rows
}
