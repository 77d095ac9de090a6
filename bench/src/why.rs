//! Why a pair is due: the proved question, ordinary Rust of the same algorithm, and the rows that compare them. A call asks why of the last pair of its piece.
use crate::call::call;
use crate::flow::Fed;
use crate::inputs;
use crate::list::{self, accepted, from, records, start_set, step, target, Record, ACCEPT};
use crate::row::{Both, Buffers, Call, Row, Side};
use crate::sets::States;
use crate::sizes::{FLOW_SIZE, SET_SIZE, STATES};

/// What is asked: a list, an opened record, the bytes of a flow, and the signature that ends with them.
struct Work {
    list: Vec<u8>,
    flow: [u8; FLOW_SIZE],
    piece: Vec<u8>,
    signature: u32,
}

fn has(set: &States, s: u16) -> bool {
    set.0[usize::from(s / 64)] >> (s % 64) & 1 == 1
}

fn takes(record: &Record, byte: u8) -> bool {
    let within = |byte: u8| record[1] <= byte && byte <= record[2];
    record[0] == 1 && (within(byte) || record[3] == 1 && byte.is_ascii_alphabetic() && within(byte ^ 32))
}

/// The lowest state of the frontier from which such a record leads to t.
fn lowest(list: &[Record], frontier: &States, t: u16, such: impl Fn(&Record) -> bool) -> u16 {
    let leads = |record: &&Record| target(record) == t && such(record) && has(frontier, from(record));
    list.iter().filter(leads).map(from).min().unwrap_or(STATES as u16)
}

/// The states and the frontiers, and the refusal; both are zeros before.
#[inline(never)]
fn why(work: &Work, run: &mut [u16], place: &mut [u8]) -> u32 {
    let refusal = list::check(&work.list);
    if refusal != 0 {
        return refusal;
    }
    let list = records(&work.list);
    let first = States::read(work.flow[..SET_SIZE].try_into().unwrap());
    let n = work.piece.len();
    let last = work.piece.iter().fold(first, |f, &byte| step(list, f, byte));
    let mut t = lowest(list, &last, work.signature as u16, |record| record[0] == ACCEPT);
    if usize::from(t) == STATES {
        return 26;
    }
    let mut frontier = first;
    for (i, set) in place.chunks_exact_mut(SET_SIZE).enumerate().take(n + 1) {
        for (bytes, word) in set.chunks_exact_mut(8).zip(frontier.0) {
            bytes.copy_from_slice(&word.to_le_bytes());
        }
        if i < n {
            frontier = step(list, frontier, work.piece[i]);
        }
    }
    for i in (0..n).rev() {
        run[i + 1] = t;
        let set = States::read(place[SET_SIZE * i..][..SET_SIZE].try_into().unwrap());
        t = lowest(list, &set, t, |record| takes(record, work.piece[i]));
    }
    run[0] = t;
    0
}

/// Both answers as one, so that every state of the run is compared.
fn answered(refusal: u32, run: &[u16]) -> Fed {
    Fed {
        refusal,
        bytes: run.len() - 1,
        pairs: run.iter().fold(7usize, |h, &s| h.wrapping_mul(1025).wrapping_add(s.into())),
        all: refusal == 0,
    }
}

/// The row by ordinary Rust.
fn by_rust(work: &Work, place: &mut Vec<u8>) -> Fed {
    let mut run = vec![0; work.piece.len() + 1];
    place.resize(SET_SIZE * run.len(), 0);
    let refusal = why(work, &mut run, place);
    answered(refusal, &run)
}

/// The row by the proved function.
fn proved(work: &Work, place: &mut Vec<u8>) -> Fed {
    let mut run = vec![0; work.piece.len() + 1];
    place.resize(SET_SIZE * run.len(), 0);
    let refusal = call!(watch_why(
        &work.list,
        &work.flow,
        0,
        &work.piece,
        work.signature,
        work.piece.len() as u64,
        &mut run,
        &mut place
    ));
    answered(refusal, &run)
}

/// The record that opening leaves: state 0 starts.
fn opened() -> [u8; FLOW_SIZE] {
    let mut record = [0; FLOW_SIZE];
    record[0] = 1;
    record
}

/// A piece whose last two bytes are an order, and a signature that it ends.
fn asked(records_of: usize, bytes: fn(usize) -> Vec<u8>) -> Work {
    let list = inputs::orders_list(records_of);
    let mut piece = bytes(1022);
    piece.extend(inputs::telling_bytes(2));
    let begun = start_set(records(&list));
    let last = piece.iter().fold(begun, |f, &byte| step(records(&list), f, byte));
    let told = accepted(records(&list), last);
    let signature = (0..256u32).find(|g| told.0[*g as usize / 64] >> (g % 64) & 1 == 1).expect("the order is told");
    Work { list, flow: opened(), piece, signature }
}

const SIDES: Both<fn(&Work, &mut Vec<u8>) -> Fed> = Both([proved, by_rust]);

impl Call for Work {
    fn run(&self, side: Side, buffers: &mut Buffers) -> Fed {
        SIDES.of(side)(self, &mut buffers.held)
    }

    /// The bytes of flow that a call explains.
    fn bytes(&self) -> Option<usize> {
        Some(self.piece.len())
    }
}

pub fn rows() -> Vec<Row> {
    vec![
        Row::new("why, 318 records, 1,022 quiet bytes and an order", 1, || asked(318, inputs::quiet_bytes)),
        Row::new("why, 318 records, 1,024 bytes of orders", 1, || asked(318, inputs::telling_bytes)),
        Row::new("why, 8,192 records, 1,022 quiet bytes and an order", 1, || asked(8192, inputs::quiet_bytes)),
    ]
}
