//! What every feed shares in ordinary Rust: the flow record, the pairs, and what a feed answers.
use crate::raw::WatchFed;
use crate::sets::{Signatures, States};
use crate::sizes::{FLOW_SIZE, MOST_OFFSET, SET_SIZE, STATES};

/// What a feed answers.
#[derive(Clone, Copy, Debug, PartialEq, Eq)]
pub struct Fed {
    pub refusal: u32,
    pub bytes: usize,
    pub pairs: usize,
    pub all: bool,
}

impl From<WatchFed> for Fed {
    fn from(answer: WatchFed) -> Fed {
        Fed { refusal: answer.refusal, bytes: answer.bytes as usize, pairs: answer.pairs as usize, all: answer.all }
    }
}

/// The answer of a check, which consumes and tells nothing.
pub fn refused(refusal: u32) -> Fed {
    Fed { refusal, bytes: 0, pairs: 0, all: false }
}

pub struct Flow {
    pub frontier: States,
    pub offset: u64,
    pub rows: u64,
}

pub fn write_flow(record: &mut [u8], flow: &Flow) {
    let (frontier, rest) = record.split_at_mut(SET_SIZE);
    frontier.copy_from_slice(&flow.frontier.bytes());
    rest[..4].copy_from_slice(&(flow.offset as u32).to_le_bytes());
    rest[4..8].fill(0);
    rest[8..].copy_from_slice(&flow.rows.to_le_bytes());
}

/// The flow of a record, or the first of the rules 4 to 6 that refuses the piece.
pub fn read_flow(known: bool, record: &[u8], start: u64, piece: &[u8]) -> Result<Flow, u32> {
    let record: &[u8; FLOW_SIZE] = record.try_into().map_err(|_| 4u32)?;
    let (set, rest) = record.split_at(SET_SIZE);
    let set = set.try_into().expect("a set comes first");
    let (offset, rest) = rest.split_at(4);
    let (reserved, rows) = rest.split_at(4);
    let offset = u64::from(u32::from_le_bytes(offset.try_into().expect("4 bytes")));
    let rows = u64::from_le_bytes(rows.try_into().expect("8 bytes"));
    if reserved != [0; 4] || rows > STATES as u64 * offset || !known {
        return Err(4);
    }
    if start != offset {
        return Err(5);
    }
    if piece.len() as u64 > MOST_OFFSET - offset {
        return Err(6);
    }
    Ok(Flow { frontier: States::read(set), offset, rows })
}

/// Writes the pairs of one offset; says how many, or nothing where they do not fit.
pub fn tell(room: &mut [[u32; 2]], signatures: Signatures, offset: u64) -> Option<usize> {
    let count = signatures.count() as usize;
    if room.len() < count {
        return None;
    }
    for (pair, signature) in room.iter_mut().zip(signatures.members()) {
        *pair = [u32::from(signature), offset as u32];
    }
    Some(count)
}
