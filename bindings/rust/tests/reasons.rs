//! Why: replays its outside vectors, `crates/list_why_replay/stdin`, through the archive and compares each line with `crates/list_why_replay/stdout`; and asks
//! why of every pair that feeds by the list and a matrix tell of the example. Every buffer is a heap block of exactly its length.
//! `WATCH_VECTORS` may name a smaller number of lines.

mod common;

use common::stream;

use stream::{digest, lent_bytes, read, replay, Reader};
use watch::{raw, Flow, List, Matrix, Question, ENOUGH_WORDS};

/// What the commands work on.
#[derive(Default)]
struct State {
    list: Box<[u8]>,
    record: Box<[u8]>,
    piece: Box<[u8]>,
}

impl State {
    /// Runs one command; a question gives its line.
    fn run(&mut self, reader: &mut Reader) -> Option<String> {
        match reader.take(1)[0] {
            b'L' => self.list = reader.block(),
            b'R' => self.record = reader.block(),
            b'P' => self.piece = reader.block(),
            b'w' => return Some(self.question(reader)),
            b'e' => {
                let [from, byte, to] = [(); 3].map(|()| reader.number(4) as u32);
                // SAFETY: pointer and length are those of a block that lives over the call.
                let found = unsafe { raw::watch_edge(self.list.as_ptr(), self.list.len(), from, byte, to) };
                return Some(format!("e {} {}", found.refusal, found.record));
            }
            name => panic!("no such command: {name}"),
        }
        None
    }

    fn question(&self, reader: &mut Reader) -> String {
        let of_state = reader.take(1)[0] == b's';
        let (start, asked, offset) = (reader.number(8), reader.number(4) as u32, reader.number(8));
        let (states, bytes) = (reader.number(4) as usize, reader.number(4) as usize);
        let mut run: Box<[u16]> = (0..states).map(|i| (40000 + i) as u16).collect();
        let mut work = lent_bytes(bytes);
        let call = if of_state { raw::watch_why_state } else { raw::watch_why };
        // SAFETY: pointers and lengths are those of blocks that live over the call, and those that are written overlap nothing.
        let refusal = unsafe {
            call(
                self.list.as_ptr(),
                self.list.len(),
                self.record.as_ptr(),
                self.record.len(),
                start,
                self.piece.as_ptr(),
                self.piece.len(),
                asked,
                offset,
                run.as_mut_ptr(),
                run.len(),
                work.as_mut_ptr(),
                work.len(),
            )
        };
        let states: String = run.iter().map(|state| format!(" {state}")).collect();
        format!("w {refusal} {}{states}", digest(&work))
    }
}

#[test]
fn vectors() {
    let mut state = State::default();
    replay("crates/list_why_replay/stdin", "crates/list_why_replay/stdout", |reader| state.run(reader));
}

/// Two breakfasts, by the list and by its matrix, in pieces of 7 bytes: every pair told has a run from the opening, and its edges lead from state to state.
#[test]
fn told_pairs_have_runs() {
    let bytes = read("examples/two-breakfasts/rules.bin");
    let list = List::check(&bytes).unwrap();
    let mut cells = vec![0; list.matrix_size()];
    let matrix = Matrix::fill(&list, &mut cells).unwrap();
    for name in ["twice", "loud", "once"] {
        let flow_bytes = read(&format!("examples/two-breakfasts/{name}"));
        let opened = Flow::open_all(&list, |_| panic!("nothing is told at once"));
        let (mut flow, mut words, mut told) = (opened.clone(), [0; ENOUGH_WORDS], Vec::new());
        for (at, piece) in flow_bytes.chunks(7).enumerate() {
            let start = 7 * at as u64;
            let fed = if at % 2 == 0 {
                flow.feed(&list, start, piece, &mut words).unwrap()
            } else {
                flow.matrix_feed(&matrix, start, piece, &mut words).unwrap()
            };
            told.extend(fed.told(&words));
        }
        assert_eq!(told.len(), usize::from(name != "once"));
        for pair in told {
            let (g, k) = (u32::from(pair.signature), u64::from(pair.offset));
            let run = list.why_all(&opened, &flow_bytes, Question::Signature(g), k).unwrap();
            for (step, byte) in run.windows(2).zip(&flow_bytes) {
                assert!(list.edge(step[0], *byte, step[1]).is_some());
            }
        }
    }
}
