//! A row of the table: what it calls and on what, for either side; how both are compared, and how a side is timed.
use crate::clock;
use crate::flow::Fed;
use crate::inputs::{QUIET, TELLING};
use crate::later::black_box;
use crate::sizes::FLOW_SIZE;

/// The nanoseconds of processor time that one run of one side takes, where a call is shorter.
const RUN: f64 = 25e6;

/// Whose function is called.
#[derive(Clone, Copy)]
pub enum Side {
    Proved,
    Rust,
}

/// A function of both sides: the proved library's, and ordinary Rust's. It is called by its address, so that neither is put into its caller.
pub struct Both<F>(pub [F; 2]);

impl<F: Copy> Both<F> {
    pub fn of(&self, side: Side) -> F {
        self.0[side as usize]
    }
}

/// What a row calls, and on what.
pub trait Call {
    /// One call of a side.
    fn run(&self, side: Side, buffers: &mut Buffers) -> Fed;

    /// Makes the lists that a call writes to, where it needs some.
    fn lend(&self, _buffers: &mut Buffers) {}

    /// The bytes that a call consumes; nothing where the row is about calls.
    fn bytes(&self) -> Option<usize> {
        None
    }

    /// The refusal that is due.
    fn refusal(&self) -> u32 {
        0
    }

    /// Calls Rust that looks up in a hash map again and again, and gives what the last call answers; nothing where there is none.
    fn repeat_hashed(&self, _calls: u32, _buffers: &mut Buffers) -> Option<Fed> {
        None
    }

    /// Looks at what a row with traffic is called on; `name` is the row's.
    fn look(&self, _name: &str) {}
}

/// A row of the table: its name, how many calls a turn of bench/count has, and what makes its call.
pub struct Row {
    pub name: String,
    pub turn: u32,
    make: Box<dyn Fn() -> Box<dyn Call>>,
}

impl Row {
    pub fn new<C: Call + 'static>(name: impl Into<String>, turn: u32, make: impl Fn() -> C + 'static) -> Row {
        Row { name: name.into(), turn, make: Box::new(move || Box::new(make())) }
    }

    pub fn work(&self) -> Work {
        Work { name: self.name.clone(), call: (self.make)() }
    }
}

/// The buffers that a call writes to: a flow record, the pairs, a matrix, an index, the held buffer, the four lists of a table, and a list; the last two are
/// empty unless the call makes one.
#[derive(Clone, PartialEq)]
pub struct Buffers {
    pub flow: [u8; FLOW_SIZE],
    pub pairs: Vec<u32>,
    pub matrix: Vec<u8>,
    pub index: Vec<u8>,
    pub held: Vec<u8>,
    pub lists: [Vec<u8>; 4],
    pub list: Vec<u8>,
}

impl Buffers {
    /// What stands in a buffer before a call.
    pub const BEFORE: u8 = 0xAA;

    pub fn new(call: &dyn Call) -> Buffers {
        let mut buffers = Buffers {
            flow: [Buffers::BEFORE; FLOW_SIZE],
            pairs: vec![0xAAAA_AAAA; 8192],
            matrix: Vec::new(),
            index: Vec::new(),
            held: Vec::new(),
            lists: Default::default(),
            list: Vec::new(),
        };
        call.lend(&mut buffers);
        buffers
    }

    /// The four lists, of so many bytes.
    pub fn lend_lists(&mut self, lengths: [usize; 4]) {
        self.lists = lengths.map(|n| vec![Buffers::BEFORE; n]);
    }
}

/// A row that is made.
pub struct Work {
    pub name: String,
    pub call: Box<dyn Call>,
}

impl Work {
    /// Runs both sides once and compares answers, flow records and all words of the pairs buffer. Nothing is refused but the texts that are to
    /// be. Rows with traffic tell what their names say, and their tables pass the check.
    pub fn compare(&self) {
        let (call, name) = (&*self.call, &self.name);
        let (mut ours, mut theirs) = (Buffers::new(call), Buffers::new(call));
        let answer = call.run(Side::Proved, &mut ours);
        assert_eq!(answer, call.run(Side::Rust, &mut theirs), "{name}: answers");
        assert!(ours == theirs, "{name}: buffers");
        let mut hashed = Buffers::new(call);
        if let Some(fed) = call.repeat_hashed(1, &mut hashed) {
            assert_eq!(answer, fed, "{name}: answers by the hash map");
            assert!(ours == hashed, "{name}: buffers by the hash map");
        }
        assert_eq!(answer.refusal, call.refusal(), "{name}: refused");
        let room = call.bytes().map_or(true, |n| answer.bytes == n && answer.all);
        assert!(room, "{name}: no room");
        let (quiet, telling) = (name.ends_with(QUIET), name.ends_with(TELLING));
        if quiet || telling {
            let due = if quiet { 0 } else { answer.bytes / 2 * 2 };
            assert_eq!(answer.pairs, due, "{name}: pairs");
            call.look(name);
        }
    }

    /// Calls one side again and again.
    pub fn repeat(&self, side: Side, calls: u32, buffers: &mut Buffers) {
        for _ in 0..calls {
            black_box(black_box(self).call.run(side, buffers));
        }
    }

    /// The nanoseconds of one call, over a run of them.
    pub fn time(&self, side: Side, calls: u32) -> f64 {
        let mut buffers = Buffers::new(&*self.call);
        let begin = clock::now();
        self.repeat(side, calls, &mut buffers);
        (clock::now() - begin) / f64::from(calls)
    }

    /// How many calls fill a run.
    pub fn calls(&self, side: Side) -> u32 {
        let mut calls = 1;
        loop {
            let taken = self.time(side, calls) * f64::from(calls);
            if taken * 4.0 >= RUN {
                return ((RUN / taken * f64::from(calls)) as u32).max(1);
            }
            calls *= 2;
        }
    }
}

/// A number with a comma after the thousands.
pub fn number(n: usize) -> String {
    match n {
        0..=999 => n.to_string(),
        _ => format!("{},{:03}", n / 1000, n % 1000),
    }
}
