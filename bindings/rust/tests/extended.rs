//! The automaton with bits and counters: replays its outside vectors, `crates/machine_replay/stdin`, through the three functions of the archive and
//! compares each line with `crates/machine_replay/stdout`; and feeds the worked example, `examples/long-line`, beside its list. Every buffer is a
//! heap block of exactly its length. `WATCH_VECTORS` may name a smaller number of lines.

mod common;

use common::stream;

use stream::{digest, digest_words, read, replay, Reader};
use watch::machine::{Flow, Machine};
use watch::{raw, List, Pair, Refusal, X_FLOW_SIZE, X_OFF};

fn digests(words: &[u32], record: &[u8]) -> String {
    format!("{} {}", digest_words(words), digest(record))
}

/// What the commands work on.
#[derive(Default)]
struct State {
    moves: Box<[u8]>,
    programs: Box<[u8]>,
    record: Box<[u8]>,
}

impl State {
    /// Runs one command; those that answer give their line.
    fn run(&mut self, reader: &mut Reader) -> Option<String> {
        let name = reader.take(1)[0];
        let (m, ml, p, pl) = (self.moves.as_ptr(), self.moves.len(), self.programs.as_ptr(), self.programs.len());
        match name {
            b'M' => self.moves = reader.block(),
            b'P' => self.programs = reader.block(),
            b'R' => self.record = reader.block(),
            // SAFETY, here and below: pointers and lengths are those of blocks that live over the call and do not overlap.
            b'c' => return Some(format!("c {}", unsafe { raw::watch_x_check(m, ml, p, pl) })),
            b'o' => {
                let mut words = reader.words();
                let (record, length) = (self.record.as_mut_ptr(), self.record.len());
                let opened =
                    unsafe { raw::watch_x_open(m, ml, p, pl, record, length, words.as_mut_ptr(), words.len()) };
                return Some(format!("o {} {} {}", opened.refusal, opened.pairs, digests(&words, &self.record)));
            }
            b'f' => {
                let (start, mut words, piece) = (reader.number(8), reader.words(), reader.block());
                let (record, length) = (self.record.as_mut_ptr(), self.record.len());
                let fed = unsafe {
                    raw::watch_x_feed(
                        m,
                        ml,
                        p,
                        pl,
                        record,
                        length,
                        start,
                        piece.as_ptr(),
                        piece.len(),
                        words.as_mut_ptr(),
                        words.len(),
                    )
                };
                let all = u32::from(fed.all);
                let left = digests(&words, &self.record);
                return Some(format!("f {} {} {} {all} {left}", fed.refusal, fed.bytes, fed.pairs));
            }
            _ => panic!("no such command: {name}"),
        }
        None
    }
}

#[test]
fn vectors() {
    let mut state = State::default();
    replay("crates/machine_replay/stdin", "crates/machine_replay/stdout", |reader| state.run(reader));
}

#[test]
fn long_line() {
    let (moves, programs, rules) = (
        read("examples/long-line/moves.bin"),
        read("examples/long-line/programs.bin"),
        read("examples/long-line/rules.bin"),
    );
    let (machine, list) = (Machine::check(&moves, &programs).unwrap(), List::check(&rules).unwrap());
    assert_eq!(machine.states(), 7);
    for (name, due) in [("long", vec![Pair { signature: 5, offset: 313 }]), ("short", vec![])] {
        let bytes = read(&format!("examples/long-line/{name}"));
        let mut flow = Flow::open(&machine, &mut []).unwrap().flow;
        let mut told = Vec::new();
        for (i, piece) in bytes.chunks(7).enumerate() {
            flow.feed_all(&machine, 7 * i as u64, piece, |pair| told.push(pair)).unwrap();
        }
        assert_eq!(told, due, "{name}");
        assert_eq!((flow.offset() as usize, flow.bits(), flow.counter(0)), (bytes.len(), 0, None));
        let mut listed = Vec::new();
        let mut plain = watch::Flow::open_all(&list, |pair| listed.push(pair));
        plain.feed_all(&list, 0, &bytes, |pair| listed.push(pair)).unwrap();
        assert_eq!(listed, due, "{name}, by the list");
    }
}

#[test]
fn refusals() {
    let (moves, programs) = ([0; 512], [0; 32]);
    assert_eq!(Machine::check(&moves[1..], &programs), Err(Refusal::Machine));
    let machine = Machine::check(&moves, &programs).unwrap();
    let mut flow = Flow::open(&machine, &mut []).unwrap().flow;
    assert_eq!(flow.feed(&machine, 1, b"", &mut []), Err(Refusal::OtherStart));
    for (at, value, passes) in [(0, 1, false), (3, 1, false), (18, 1, true), (18, 2, false)] {
        let mut bytes: [u8; X_FLOW_SIZE] = *flow.as_bytes();
        bytes[at] = value;
        let fed = Flow::from_bytes(bytes).feed(&machine, 0, b"", &mut []);
        assert_eq!(fed.is_ok(), passes, "byte {at} is {value}");
    }
    assert_eq!(X_OFF, 65_536);
    assert_eq!(Refusal::from_number(24), Some(Refusal::Machine));
}
