//! Certificates: replays their outside vectors, `crates/machine_certificate_replay/stdin`, and the longest, `tools/second/certificate/certificates`, through the archive and
//! compares each line with `crates/machine_certificate_replay/stdout` and `tools/second/certificate/certified`; and runs both feeds beside each other on every list and
//! automaton whose certificate is accepted. Every buffer is a heap block of exactly its length. `WATCH_VECTORS` may name a smaller number of lines.

mod common;

use common::{dice, stream};

use dice::Dice;
use stream::{read, replay, Reader};
use watch::machine::{Certificate, Machine};
use watch::{machine, raw, Flow, List, Pair, Refusal, ENOUGH_WORDS, NOTE_SIZE, RECORD_SIZE};

/// What the commands work on.
#[derive(Default)]
struct State {
    list: Box<[u8]>,
    moves: Box<[u8]>,
    programs: Box<[u8]>,
    certificate: Box<[u8]>,
}

impl State {
    /// Runs one command; a check gives its refusal.
    fn run(&mut self, reader: &mut Reader) -> Option<u32> {
        match reader.take(1)[0] {
            b'L' => self.list = reader.block(),
            b'M' => self.moves = reader.block(),
            b'P' => self.programs = reader.block(),
            b'Z' => self.certificate = reader.block(),
            b'E' => {
                let (at, bytes) = (reader.number(4) as usize, reader.block());
                self.certificate[at..at + bytes.len()].copy_from_slice(&bytes);
            }
            b'N' => self.certificate = self.certificate[..reader.number(4) as usize].into(),
            b'z' => return Some(self.refusal()),
            name => panic!("no such command: {name}"),
        }
        None
    }

    fn refusal(&self) -> u32 {
        // SAFETY: pointers and lengths are those of blocks that live over the call.
        unsafe {
            raw::watch_check_certificate(
                self.list.as_ptr(),
                self.list.len(),
                self.moves.as_ptr(),
                self.moves.len(),
                self.programs.as_ptr(),
                self.programs.len(),
                self.certificate.as_ptr(),
                self.certificate.len(),
            )
        }
    }
}

/// Replays a stream, and hands the state at each line, with its refusal, to a test.
fn replayed((commands, lines): (&str, &str), mut test: impl FnMut(&State, u32)) {
    let mut state = State::default();
    replay(commands, lines, |reader| {
        let refusal = state.run(reader)?;
        test(&state, refusal);
        Some(format!("z {refusal}"))
    });
}

const STREAMS: [(&str, &str); 2] = [
    ("crates/machine_certificate_replay/stdin", "crates/machine_certificate_replay/stdout"),
    ("tools/second/certificate/certificates", "tools/second/certificate/certified"),
];

#[test]
fn vectors() {
    for stream in STREAMS {
        replayed(stream, |_, _| ());
    }
}

/// A flow in pieces: each is of any length, with room for any number of pairs, and what had no room is fed again.
fn in_pieces(
    bytes: &[u8],
    dice: &mut Dice,
    told: &mut Vec<Pair>,
    mut feed: impl FnMut(u64, &[u8], &mut [u32]) -> watch::Fed,
) {
    let mut words = [0; ENOUGH_WORDS];
    let mut at = 0;
    while at < bytes.len() {
        let end = dice.from(at, bytes.len().min(at + 24));
        let room = dice.pick(&[0, 1, 2, 3, 5, ENOUGH_WORDS]);
        let fed = feed(at as u64, &bytes[at..end], &mut words[..room]);
        told.extend(fed.told(&words));
        at += fed.bytes;
    }
}

/// Bytes of which most are such that edges of the list begin or end at.
fn traffic(list: &[u8], dice: &mut Dice) -> Vec<u8> {
    let mut letters = vec![dice.byte(), dice.byte(), 0, 255];
    for record in list.chunks(RECORD_SIZE).filter(|record| record[0] == 1) {
        letters.extend([record[1], record[2], record[1] ^ 32]);
    }
    (0..dice.from(0, 200)).map(|_| if dice.once_in(20) { dice.byte() } else { dice.pick(&letters) }).collect()
}

/// The pairs of both feeds, each cut as dice fall.
fn both(list: &List, machine: &Machine, bytes: &[u8], dice: &mut Dice) -> [Vec<Pair>; 2] {
    let (mut listed, mut counted) = (Vec::new(), Vec::new());
    let mut words = [0; ENOUGH_WORDS];
    let mut plain = Flow::open_all(list, |pair| listed.push(pair));
    in_pieces(bytes, dice, &mut listed, |start, piece, words| plain.feed(list, start, piece, words).unwrap());
    let opened = machine::Flow::open(machine, &mut words).unwrap();
    counted.extend(opened.told(&words));
    let mut flow = opened.flow;
    in_pieces(bytes, dice, &mut counted, |start, piece, words| flow.feed(machine, start, piece, words).unwrap());
    [listed, counted]
}

#[test]
fn both_feeds_tell_the_same_pairs() {
    let mut dice = Dice(22);
    let (mut accepted, mut told) = (0, 0);
    replayed(STREAMS[0], |state, refusal| {
        if refusal == 0 {
            let list = List::check(&state.list).unwrap();
            let machine = Machine::check(&state.moves, &state.programs).unwrap();
            for _ in 0..3 {
                let bytes = traffic(&state.list, &mut dice);
                let [listed, counted] = both(&list, &machine, &bytes, &mut dice);
                assert_eq!(listed, counted, "certificate {accepted}");
                told += listed.len();
            }
            accepted += 1;
        }
    });
    assert!(accepted > 0 && told > 10 * accepted, "{told} pairs of {accepted} certificates");
}

#[test]
fn long_line() {
    let [rules, moves, programs, bytes] =
        ["rules", "moves", "programs", "certificate"].map(|name| read(&format!("examples/long-line/{name}.bin")));
    let (list, machine) = (List::check(&rules).unwrap(), Machine::check(&moves, &programs).unwrap());
    let certificate = Certificate::check(&list, &machine, &bytes).unwrap();
    assert_eq!((certificate.records(), certificate.list(), certificate.machine()), (308, list, machine));
    for name in ["long", "short"] {
        let [listed, counted] = both(&list, &machine, &read(&format!("examples/long-line/{name}")), &mut Dice(1));
        assert_eq!(listed, counted, "{name}");
    }
    // Two records may stand in each other's place; a bit that changes is seen, whichever it is.
    let mut dice = Dice(7);
    for _ in 0..8 {
        let (one, other) = (NOTE_SIZE * dice.below(308), NOTE_SIZE * dice.below(308));
        let mut changed = bytes.clone();
        changed[one..one + NOTE_SIZE].copy_from_slice(&bytes[other..other + NOTE_SIZE]);
        changed[other..other + NOTE_SIZE].copy_from_slice(&bytes[one..one + NOTE_SIZE]);
        assert!(Certificate::check(&list, &machine, &changed).is_ok());
        let at = dice.below(changed.len());
        changed[at] ^= 1 << dice.below(8);
        assert_eq!(Certificate::check(&list, &machine, &changed), Err(Refusal::Certificate), "byte {at}");
    }
}
