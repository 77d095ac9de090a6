//! Segments by sequence number: the proved functions, ordinary Rust of the same algorithm, and the rows that compare them. A call takes a segment and asks
//! for the part that is then due.
use crate::call::call;
use crate::flow::Fed;
use crate::raw::{WatchHeld as Held, WatchPart as Part};
use crate::row::{Both, Buffers, Call, Row, Side};
use crate::sizes::{HELD_SIZE, MOST_SEGMENT};

const HALF: u32 = 1 << 31;

/// What is asked: the next number, the held place, and a segment.
struct Work {
    next: u32,
    start: u32,
    length: u32,
    first: u32,
    segment: Vec<u8>,
}

fn ahead(next: u32, p: u32) -> bool {
    let d = p.wrapping_sub(next);
    0 < d && d < HALF
}

fn has_next(next: u32, p: u32, n: usize) -> bool {
    (next.wrapping_sub(p) as usize) < n
}

fn free(next: u32, p: u32, n: usize) -> bool {
    n == 0 || !ahead(next, p) && !has_next(next, p, n)
}

fn bad_sizes(held: usize, n: usize, segment: usize) -> bool {
    segment > MOST_SEGMENT || held != HELD_SIZE || n > HELD_SIZE
}

/// Neither this nor `due` is put into its caller, as the functions of an archive are not.
#[inline(never)]
fn take(next: u32, held: &mut [u8], p: u32, n: u32, q: u32, segment: &[u8]) -> Held {
    let early = !segment.is_empty() && ahead(next, q);
    let full = || !free(next, p, n as usize) || segment.len() > HELD_SIZE;
    if bad_sizes(held.len(), n as usize, segment.len()) || early && full() {
        return Held { refusal: 18, start: p, length: n };
    }
    if early {
        held[..segment.len()].copy_from_slice(segment);
        return Held { refusal: 0, start: q, length: segment.len() as u32 };
    }
    Held { refusal: 0, start: p, length: if free(next, p, n as usize) { 0 } else { n } }
}

#[inline(never)]
fn due(next: u32, held: &[u8], p: u32, n: u32, q: u32, segment: &[u8]) -> Part {
    let n = n as usize;
    let part = |source, at: usize, length: usize| Part { at: at as u64, length: length as u64, source };
    if bad_sizes(held.len(), n, segment.len()) {
        return part(0, 0, 0);
    }
    if has_next(next, p, n) {
        let at = next.wrapping_sub(p) as usize;
        return part(1, at, n - at);
    }
    if has_next(next, q, segment.len()) {
        let at = next.wrapping_sub(q) as usize;
        let (rest, held_at) = (segment.len() - at, p.wrapping_sub(next) as usize);
        let cut = n > 0 && ahead(next, p) && held_at < rest;
        return part(2, at, if cut { held_at } else { rest });
    }
    part(0, 0, 0)
}

/// Both answers as one, so that every number of them is compared.
fn answered(held: Held, part: Part) -> Fed {
    Fed {
        refusal: held.refusal,
        bytes: part.length as usize,
        pairs: (part.at as usize) << 32 | held.length as usize,
        all: part.source == 1 && held.start < HALF,
    }
}

/// The row by ordinary Rust.
fn by_rust(work: &Work, held: &mut [u8]) -> Fed {
    let Work { next, first, .. } = *work;
    let place = take(next, held, work.start, work.length, first, &work.segment);
    let part = due(next, held, place.start, place.length, first, &work.segment);
    answered(place, part)
}

/// The row by the proved code.
fn proved(work: &Work, held: &mut [u8]) -> Fed {
    let Work { next, first, .. } = *work;
    let place = call!(watch_take(next, &mut held, work.start, work.length, first, &work.segment));
    let part = call!(watch_due(next, &held, place.start, place.length, first, &work.segment));
    answered(place, part)
}

const SIDES: Both<fn(&Work, &mut [u8]) -> Fed> = Both([proved, by_rust]);

impl Call for Work {
    fn run(&self, side: Side, buffers: &mut Buffers) -> Fed {
        SIDES.of(side)(self, &mut buffers.held)
    }

    fn lend(&self, buffers: &mut Buffers) {
        buffers.held = vec![Buffers::BEFORE; HELD_SIZE];
    }
}

pub fn rows() -> Vec<Row> {
    fn asked(first: i64, count: usize, start: i64, length: u32) -> Work {
        let next = u32::MAX - 20;
        Work {
            next,
            start: next.wrapping_add(start as u32),
            length,
            first: next.wrapping_add(first as u32),
            segment: vec![97; count],
        }
    }
    vec![
        Row::new("segment, the next 1,460 bytes", 100, || asked(0, 1460, -9, 0)),
        Row::new("segment, its new end", 100, || asked(-730, 1460, -9, 0)),
        Row::new("segment, dropped", 100, || asked(-1460, 1460, -9, 0)),
        Row::new("segment, up to the held part", 100, || asked(0, 1460, 100, 50)),
        Row::new("segment, the held part is due", 100, || asked(-10, 1460, -5, 50)),
        Row::new("segment, 1 byte is held", 100, || asked(100, 1, -9, 9)),
        Row::new("segment, 1,460 bytes are held", 100, || asked(100, 1460, -9, 9)),
        Row::new("segment, 4,096 bytes are held", 100, || asked(100, 4096, -9, 9)),
    ]
}
