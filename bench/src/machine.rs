//! The automaton with bits and counters: the proved functions, ordinary Rust of the same algorithm, and the rows that compare them.
use crate::call::call;
use crate::flow::{refused, Fed};
use crate::row::{Both, Buffers, Call, Row, Side};
use crate::sizes::{X_FLOW_SIZE, X_MOVES_SIZE, X_OFF, X_PROGRAM_SIZE};

#[derive(Clone, Copy)]
pub struct Config {
    pub state: usize,
    pub bits: u64,
    pub counters: [u32; 16],
}

/// What the start state's program runs on.
pub const START: Config = Config { state: 0, bits: 0, counters: [X_OFF; 16] };

pub fn two(b: &[u8]) -> u16 {
    u16::from_le_bytes([b[0], b[1]])
}

fn good_record(r: &[u8]) -> bool {
    let (w, n) = (r[1], two(&r[2..]));
    match r[0] {
        0 => w == 0 && n == 0,
        1 | 2 => w < 64 && n == 0,
        3 => w < 16,
        4 | 5 => w < 16 && n == 0,
        6 => w == 0 && n < 256,
        7 => w < 64 && n < 256,
        8 => w < 16 && n < 256,
        _ => false,
    }
}

pub fn check(moves: &[u8], programs: &[u8]) -> u32 {
    let states = moves.len() / X_MOVES_SIZE;
    if moves.is_empty() || moves.len() % X_MOVES_SIZE != 0 || states > 1024 || programs.len() != X_PROGRAM_SIZE * states
    {
        return 24;
    }
    let n = states as u16;
    let good = moves.chunks_exact(2).fold(true, |all, t| all & (two(t) < n));
    if !good || !programs.chunks_exact(4).all(good_record) {
        24
    } else {
        0
    }
}

pub fn run(program: &[u8], x: &mut Config) -> [u64; 4] {
    let mut alerts = [0u64; 4];
    for r in program.chunks_exact(4) {
        let (w, n) = (r[1] as usize, two(&r[2..]) as usize);
        let alert = match r[0] {
            0 => false,
            1 => {
                x.bits |= 1 << (w % 64);
                false
            }
            2 => {
                x.bits &= !(1 << (w % 64));
                false
            }
            3 => {
                x.counters[w] = n as u32;
                false
            }
            4 => {
                x.counters[w] = X_OFF;
                false
            }
            5 => {
                let c = &mut x.counters[w];
                *c = if *c == 0 || *c == X_OFF { X_OFF } else { *c - 1 };
                false
            }
            6 => true,
            7 => x.bits >> (w % 64) & 1 == 1,
            _ => x.counters[w] == 0,
        };
        if alert {
            alerts[n / 64] |= 1 << (n % 64);
        }
    }
    alerts
}

fn tell(pairs: &mut [u32], at: usize, alerts: &[u64; 4], offset: u32) {
    let mut w = at;
    for (i, word) in alerts.iter().enumerate() {
        let mut rest = *word;
        while rest != 0 {
            pairs[w] = (64 * i) as u32 + rest.trailing_zeros();
            pairs[w + 1] = offset;
            w += 2;
            rest &= rest - 1;
        }
    }
}

fn load(flow: &[u8]) -> Config {
    let mut counters = [0; 16];
    for (c, b) in counters.iter_mut().zip(flow[16..].chunks_exact(4)) {
        *c = u32::from_le_bytes(b.try_into().unwrap());
    }
    Config { state: two(flow) as usize, bits: u64::from_le_bytes(flow[8..16].try_into().unwrap()), counters }
}

fn save(flow: &mut [u8], x: &Config, offset: u32) {
    flow[0..2].copy_from_slice(&(x.state as u16).to_le_bytes());
    flow[2..4].fill(0);
    flow[4..8].copy_from_slice(&offset.to_le_bytes());
    flow[8..16].copy_from_slice(&x.bits.to_le_bytes());
    for (c, b) in x.counters.iter().zip(flow[16..].chunks_exact_mut(4)) {
        b.copy_from_slice(&c.to_le_bytes());
    }
}

fn many(alerts: &[u64; 4]) -> usize {
    if alerts.iter().all(|w| *w == 0) {
        0
    } else {
        alerts.iter().map(|w| w.count_ones() as usize).sum()
    }
}

fn open(moves: &[u8], programs: &[u8], flow: &mut [u8], pairs: &mut [u32]) -> (u32, usize) {
    if check(moves, programs) != 0 {
        return (24, 0);
    }
    if flow.len() != X_FLOW_SIZE {
        return (4, 0);
    }
    let mut x = START;
    let alerts = run(&programs[..X_PROGRAM_SIZE], &mut x);
    let n = many(&alerts);
    if pairs.len() / 2 < n {
        return (15, 0);
    }
    tell(pairs, 0, &alerts, 0);
    save(flow, &x, 0);
    (0, n)
}

fn refusal(moves: &[u8], programs: &[u8], flow: &[u8], start: u64, piece: &[u8]) -> u32 {
    if check(moves, programs) != 0 {
        return 24;
    }
    if flow.len() != X_FLOW_SIZE {
        return 4;
    }
    let x = load(flow);
    if x.state >= moves.len() / X_MOVES_SIZE || flow[2..4] != [0, 0] || x.counters.iter().any(|c| *c > X_OFF) {
        return 4;
    }
    let offset = u32::from_le_bytes(flow[4..8].try_into().unwrap()) as u64;
    if start != offset {
        return 5;
    }
    if piece.len() as u64 > 4294967295 - offset {
        return 6;
    }
    0
}

fn feed(moves: &[u8], programs: &[u8], flow: &mut [u8], start: u64, piece: &[u8], pairs: &mut [u32]) -> Fed {
    let refusal = refusal(moves, programs, flow, start, piece);
    if refusal != 0 {
        return refused(refusal);
    }
    let mut x = load(flow);
    let mut words = 0;
    let mut bytes = piece.len();
    for (i, c) in piece.iter().enumerate() {
        let q = two(&moves[2 * (256 * x.state + *c as usize)..]) as usize;
        let program = &programs[X_PROGRAM_SIZE * q..X_PROGRAM_SIZE * q + X_PROGRAM_SIZE];
        if program.chunks_exact(8).fold(0, |all, b| all | u64::from_le_bytes(b.try_into().unwrap())) == 0 {
            x.state = q;
            continue;
        }
        let mut next = x;
        next.state = q;
        let alerts = run(program, &mut next);
        let n = many(&alerts);
        if n != 0 {
            if (pairs.len() - words) / 2 < n {
                bytes = i;
                break;
            }
            tell(pairs, words, &alerts, (start + i as u64 + 1) as u32);
            words += 2 * n;
        }
        x = next;
    }
    save(flow, &x, (start + bytes as u64) as u32);
    Fed { refusal: 0, bytes, pairs: words / 2, all: bytes == piece.len() }
}

/// What a row asks of a machine.
enum Ask {
    Check,
    Open,
    Feed { flow: [u8; X_FLOW_SIZE], piece: Vec<u8> },
}

struct Work {
    moves: Vec<u8>,
    programs: Vec<u8>,
    ask: Ask,
}

const SIDES: Both<fn(&Work, &mut [u8], &mut [u32]) -> Fed> = Both([proved, by_rust]);

impl Call for Work {
    fn run(&self, side: Side, buffers: &mut Buffers) -> Fed {
        let record = &mut buffers.flow[..X_FLOW_SIZE];
        SIDES.of(side)(self, record, &mut buffers.pairs)
    }

    fn bytes(&self) -> Option<usize> {
        match &self.ask {
            Ask::Feed { piece, .. } => Some(piece.len()),
            _ => None,
        }
    }
}

fn answered(refusal: u32, pairs: usize) -> Fed {
    Fed { refusal, bytes: 0, pairs, all: false }
}

/// The row by ordinary Rust.
fn by_rust(work: &Work, record: &mut [u8], pairs: &mut [u32]) -> Fed {
    let (moves, programs) = (&work.moves[..], &work.programs[..]);
    match &work.ask {
        Ask::Check => answered(check(moves, programs), 0),
        Ask::Open => {
            let (refusal, told) = open(moves, programs, record, pairs);
            answered(refusal, told)
        }
        Ask::Feed { flow, piece } => {
            record.copy_from_slice(flow);
            feed(moves, programs, record, 0, piece, pairs)
        }
    }
}

/// The row by the proved code.
fn proved(work: &Work, record: &mut [u8], pairs: &mut [u32]) -> Fed {
    let (moves, programs) = (&work.moves, &work.programs);
    match &work.ask {
        Ask::Check => answered(call!(watch_x_check(&moves, &programs)), 0),
        Ask::Open => {
            let opened = call!(watch_x_open(&moves, &programs, &mut record, &mut pairs));
            answered(opened.refusal, opened.pairs as usize)
        }
        Ask::Feed { flow, piece } => {
            record.copy_from_slice(flow);
            call!(watch_x_feed(&moves, &programs, &mut record, 0, &piece, &mut pairs)).into()
        }
    }
}

// The rows

/// The two lists of so many states, with the target of each state and byte, and the programs of some states.
pub fn machine(
    states: usize,
    lead: impl Fn(usize, usize) -> usize + Copy,
    programs: &[(usize, &[(u8, u8, u16)])],
) -> (Vec<u8>, Vec<u8>) {
    let moves = (0..states).flat_map(|q| (0..256).flat_map(move |c| (lead(q, c) as u16).to_le_bytes())).collect();
    let mut bytes = vec![0; X_PROGRAM_SIZE * states];
    for (state, program) in programs {
        for (j, (kind, which, number)) in program.iter().enumerate() {
            let at = X_PROGRAM_SIZE * state + 4 * j;
            bytes[at] = *kind;
            bytes[at + 1] = *which;
            bytes[at + 2..at + 4].copy_from_slice(&number.to_le_bytes());
        }
    }
    (moves, bytes)
}

fn traffic(length: u32) -> Vec<u8> {
    (0..length).map(|i| (i.wrapping_mul(2_654_435_761) >> 24) as u8).collect()
}

fn fed((moves, programs): (Vec<u8>, Vec<u8>), length: u32) -> Work {
    let mut flow = [0; X_FLOW_SIZE];
    let opened = open(&moves, &programs, &mut flow, &mut [0; 512]);
    assert_eq!(opened.0, 0);
    let piece = traffic(length);
    Work { moves, programs, ask: Ask::Feed { flow, piece } }
}

fn asked((moves, programs): (Vec<u8>, Vec<u8>), ask: Ask) -> Work {
    Work { moves, programs, ask }
}

pub fn rows() -> Vec<Row> {
    fn empty(states: usize) -> (Vec<u8>, Vec<u8>) {
        match states {
            1 => machine(1, |_, _| 0, &[]),
            4 => machine(4, |q, c| (q * 7 + c) % 4, &[]),
            _ => machine(1024, |q, c| (q * 7 + c) % 1024, &[]),
        }
    }
    fn counting() -> (Vec<u8>, Vec<u8>) {
        machine(2, |_, c| usize::from(c != 10), &[(0, &[(3, 0, 300)]), (1, &[(5, 0, 0), (8, 0, 9)])])
    }
    fn busy() -> (Vec<u8>, Vec<u8>) {
        let program = [(1, 3, 0), (3, 1, 7), (5, 1, 0), (7, 5, 1), (2, 3, 0), (8, 2, 5), (4, 1, 0), (5, 2, 0)];
        machine(2, |_, c| c % 2, &[(1, &program)])
    }
    fn telling() -> (Vec<u8>, Vec<u8>) {
        machine(2, |_, c| c % 2, &[(1, &[(6, 0, 9)])])
    }
    fn few() -> (Vec<u8>, Vec<u8>) {
        let lead = |q: usize, c: usize| if c % 16 == 0 { (q + 1) % 16 } else { q / 8 * 8 };
        machine(16, lead, &[(3, &[(1, 3, 0)]), (9, &[(7, 3, 1), (2, 3, 0)])])
    }
    fn full() -> (Vec<u8>, Vec<u8>) {
        let program = [3, 1, 7, 1, 5, 1, 0, 0, 8, 1, 9, 0, 1, 3, 0, 0, 7, 3, 1, 0, 2, 3, 0, 0, 4, 1, 0, 0, 0, 0, 0, 0];
        (empty(1024).0, program.repeat(1024))
    }
    vec![
        Row::new("extended feed, 1 state, empty programs", 2, || fed(empty(1), 4096)),
        Row::new("extended feed, 4 states, empty programs", 2, || fed(empty(4), 4096)),
        Row::new("extended feed, 1,024 states, empty programs", 2, || fed(empty(1024), 4096)),
        Row::new("extended feed, 16 states, few programs met", 2, || fed(few(), 4096)),
        Row::new("extended feed, 2 states, a counter lowered at each byte", 2, || fed(counting(), 4096)),
        Row::new("extended feed, 2 states, eight instructions at every second byte", 2, || fed(busy(), 4096)),
        Row::new("extended feed, 2 states, a pair at every second byte", 2, || fed(telling(), 4096)),
        Row::new("extended feed, 2 states, pieces of 1 byte", 100, || fed(telling(), 1)),
        Row::new("extended opening, 2 states", 100, || asked(telling(), Ask::Open)),
        Row::new("extended opening, 1,024 states", 2, || asked(empty(1024), Ask::Open)),
        Row::new("extended check, 2 states", 100, || asked(telling(), Ask::Check)),
        Row::new("extended check, 1,024 states, empty programs", 2, || asked(empty(1024), Ask::Check)),
        Row::new("extended check, 1,024 states, full programs", 2, || asked(full(), Ask::Check)),
    ]
}
