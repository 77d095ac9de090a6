//! Resends and renewals: replays their outside vectors, `crates/segment_replay/stdin`, through the archive and compares each line with `crates/segment_replay/stdout`. Every
//! buffer is a heap block of exactly its length. `WATCH_VECTORS` may name a smaller number of lines.

mod common;

use common::stream;

use stream::{digest, digest_words, replay, Reader};
use watch::raw;

/// Words of an opening.
const WORDS: usize = 1200;

/// What the commands work on.
#[derive(Default)]
struct State {
    list: Box<[u8]>,
    table: [Box<[u8]>; 4],
    record: Box<[u8]>,
    held: Box<[u8]>,
    segment: Box<[u8]>,
    first: u32,
    start: u32,
    length: u32,
}

impl State {
    /// Runs one command; one that answers gives its line.
    fn run(&mut self, reader: &mut Reader) -> Option<String> {
        match reader.take(1)[0] {
            b'L' => self.list = reader.block(),
            b'T' => self.table = [(); 4].map(|()| reader.block()),
            b'R' => self.record = reader.block(),
            b'H' => self.held = reader.sown(),
            b'S' => self.segment = reader.sown(),
            b'P' => self.segment = reader.block(),
            b'o' => return Some(self.open(reader)),
            b'g' => return Some(self.hear(reader)),
            b'p' => return Some(self.hear_at(reader)),
            b'x' => return Some(self.hear_x(reader)),
            b't' => return Some(self.take(reader)),
            b'd' => {
                let [next, held_start, held_length, start] = [(); 4].map(|()| reader.number(4) as u32);
                return Some(format!("d {}", self.due(next, held_start, held_length, start)));
            }
            b'n' => return Some(self.renew()),
            b'z' => return Some(format!("z {}", self.offset())),
            name => panic!("no such command: {name}"),
        }
        None
    }

    fn open(&mut self, reader: &mut Reader) -> String {
        (self.first, self.start, self.length) = (reader.number(4) as u32, 0, 0);
        let mut words = vec![0; WORDS].into_boxed_slice();
        // SAFETY: pointers and lengths are those of blocks that live over the call, and those that are written overlap nothing.
        let opened = unsafe {
            raw::watch_open(
                self.list.as_ptr(),
                self.list.len(),
                self.record.as_mut_ptr(),
                self.record.len(),
                words.as_mut_ptr(),
                words.len(),
            )
        };
        format!("o {} {} {}", opened.refusal, opened.pairs, digest(&self.record))
    }

    /// By the list at bound 0, else by the table.
    fn hear(&mut self, reader: &mut Reader) -> String {
        let (bound, words, start) = (reader.number(4), reader.number(4) as usize, reader.number(4) as u32);
        let mut words = vec![0; words].into_boxed_slice();
        let [classes, parts, rows, splits] = &self.table;
        // SAFETY: as in `open`.
        let heard = unsafe {
            if bound == 0 {
                raw::watch_feed_segment(
                    self.list.as_ptr(),
                    self.list.len(),
                    self.record.as_mut_ptr(),
                    self.record.len(),
                    self.first,
                    self.held.as_mut_ptr(),
                    self.held.len(),
                    self.start,
                    self.length,
                    start,
                    self.segment.as_ptr(),
                    self.segment.len(),
                    words.as_mut_ptr(),
                    words.len(),
                )
            } else {
                raw::watch_split_feed_segment(
                    self.list.as_ptr(),
                    self.list.len(),
                    bound,
                    classes.as_ptr(),
                    classes.len(),
                    parts.as_ptr(),
                    parts.len(),
                    rows.as_ptr(),
                    rows.len(),
                    splits.as_ptr(),
                    splits.len(),
                    self.record.as_mut_ptr(),
                    self.record.len(),
                    self.first,
                    self.held.as_mut_ptr(),
                    self.held.len(),
                    self.start,
                    self.length,
                    start,
                    self.segment.as_ptr(),
                    self.segment.len(),
                    words.as_mut_ptr(),
                    words.len(),
                )
            }
        };
        format!("g {}", self.heard(heard, &words))
    }

    /// What a segment answered and left, as its line says it; the held place is kept.
    fn heard(&mut self, heard: raw::WatchHeard, words: &[u32]) -> String {
        (self.start, self.length) = (heard.held_start, heard.held_length);
        format!(
            "{} {} {} {} {} {} {} {} {}",
            heard.refusal,
            heard.bytes,
            heard.pairs,
            u8::from(heard.all),
            heard.held_start,
            heard.held_length,
            digest_words(words),
            digest(&self.record),
            digest(&self.held)
        )
    }

    /// By an index, which stands in the place of the table's rows.
    fn hear_at(&mut self, reader: &mut Reader) -> String {
        let (hint, words, start) = (reader.number(4) as u32, reader.number(4) as usize, reader.number(4) as u32);
        let mut words = vec![0; words].into_boxed_slice();
        let [_, _, index, splits] = &self.table;
        // SAFETY: as in `open`.
        let at = unsafe {
            raw::watch_prepared_feed_segment(
                splits.as_ptr(),
                splits.len(),
                index.as_ptr(),
                index.len(),
                hint,
                self.record.as_mut_ptr(),
                self.record.len(),
                self.first,
                self.held.as_mut_ptr(),
                self.held.len(),
                self.start,
                self.length,
                start,
                self.segment.as_ptr(),
                self.segment.len(),
                words.as_mut_ptr(),
                words.len(),
            )
        };
        let heard = raw::WatchHeard {
            bytes: at.bytes,
            pairs: at.pairs,
            refusal: at.refusal,
            held_start: at.held_start,
            held_length: at.held_length,
            all: at.all,
        };
        format!("p {} {}", self.heard(heard, &words), at.split)
    }

    /// By an automaton with bits and counters: its moves and programs stand in the place of the table's parts and rows.
    fn hear_x(&mut self, reader: &mut Reader) -> String {
        let (_, words, start) = (reader.number(4), reader.number(4) as usize, reader.number(4) as u32);
        let mut words = vec![0; words].into_boxed_slice();
        let [_, moves, programs, _] = &self.table;
        // SAFETY: as in `open`.
        let heard = unsafe {
            raw::watch_x_feed_segment(
                moves.as_ptr(),
                moves.len(),
                programs.as_ptr(),
                programs.len(),
                self.record.as_mut_ptr(),
                self.record.len(),
                self.first,
                self.held.as_mut_ptr(),
                self.held.len(),
                self.start,
                self.length,
                start,
                self.segment.as_ptr(),
                self.segment.len(),
                words.as_mut_ptr(),
                words.len(),
            )
        };
        format!("x {}", self.heard(heard, &words))
    }

    fn take(&mut self, reader: &mut Reader) -> String {
        let [next, held_start, held_length, start] = [(); 4].map(|()| reader.number(4) as u32);
        // SAFETY: as in `open`.
        let held = unsafe {
            raw::watch_take(
                next,
                self.held.as_mut_ptr(),
                self.held.len(),
                held_start,
                held_length,
                start,
                self.segment.as_ptr(),
                self.segment.len(),
            )
        };
        let due = self.due(next, held.start, held.length, start);
        format!("t {} {} {} {} {due}", held.refusal, held.start, held.length, digest(&self.held))
    }

    fn due(&self, next: u32, held_start: u32, held_length: u32, start: u32) -> String {
        // SAFETY: as in `open`.
        let part = unsafe {
            raw::watch_due(
                next,
                self.held.as_ptr(),
                self.held.len(),
                held_start,
                held_length,
                start,
                self.segment.as_ptr(),
                self.segment.len(),
            )
        };
        let from = if part.source == 1 { &self.held } else { &self.segment };
        let bytes = &from[part.at as usize..][..part.length as usize];
        format!("{} {} {} {}", part.source, part.at, part.length, digest(bytes))
    }

    fn offset(&self) -> u64 {
        // SAFETY: as in `open`.
        unsafe { raw::watch_offset(self.record.as_ptr(), self.record.len()) }
    }

    fn renew(&mut self) -> String {
        let offset = self.offset();
        // SAFETY: as in `open`.
        let refusal = unsafe { raw::watch_renew(self.record.as_mut_ptr(), self.record.len()) };
        if refusal == 0 {
            self.first = self.first.wrapping_add(offset as u32);
        }
        format!("n {refusal} {} {}", self.first, digest(&self.record))
    }
}

#[test]
fn vectors() {
    let mut state = State::default();
    replay("crates/segment_replay/stdin", "crates/segment_replay/stdout", |reader| state.run(reader));
}
