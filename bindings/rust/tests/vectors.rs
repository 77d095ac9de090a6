//! Replays the outside vectors, `crates/list_replay/stdin`, through the archive and compares each line with
//! `crates/list_replay/stdout`. `tools/second/README.md` says what the commands are. Every buffer is a heap block of exactly its length, so
//! that a memory checker sees any step outside it. Under one, `WATCH_VECTORS` may name a smaller number of lines.

#[path = "../src/call.rs"]
mod call;
mod common;

use call::call;
use common::stream::{digest, digest_words, replay, Reader};
use std::collections::BTreeMap;
use watch::raw;

fn fed_line(name: char, fed: raw::WatchFed, split: Option<u32>, words: &[u32], record: &[u8]) -> (u32, String) {
    let line = format!(
        "{name} {} {} {} {}{} {} {}",
        fed.refusal,
        fed.bytes,
        fed.pairs,
        u32::from(fed.all),
        split.map_or(String::new(), |split| format!(" {split}")),
        digest_words(&words),
        digest(record)
    );
    (fed.refusal, line)
}

/// The state that the commands work on.
#[derive(Default)]
struct State {
    list: Box<[u8]>,
    classes: Box<[u8]>,
    parts: Box<[u8]>,
    rows: Box<[u8]>,
    splits: Box<[u8]>,
    /// A matrix, or an index.
    matrix: Box<[u8]>,
    record: Box<[u8]>,
}

impl State {
    /// Runs one command; those that answer give the refusal and the line.
    fn run(&mut self, reader: &mut Reader) -> Option<(char, u32, String)> {
        let name = char::from(reader.take(1)[0]);
        let (refusal, line) = match name {
            'L' => {
                self.list = reader.block();
                return None;
            }
            'T' => {
                self.classes = reader.block();
                self.parts = reader.block();
                self.rows = reader.block();
                self.splits = reader.block();
                return None;
            }
            'M' => {
                self.matrix = reader.block();
                return None;
            }
            'N' => {
                let (length, at, part) = (reader.length(), reader.length(), reader.block());
                let mut bytes = std::mem::take(&mut self.matrix).into_vec();
                bytes.resize(length, 0);
                bytes[at..at + part.len()].copy_from_slice(&part);
                self.matrix = bytes.into();
                return None;
            }
            'S' => {
                self.matrix = reader.sown();
                return None;
            }
            'R' => {
                self.record = reader.block();
                return None;
            }
            'c' => {
                let refusal = call!(watch_check_list(&self.list));
                (refusal, format!("c {refusal}"))
            }
            'o' => {
                let mut words = reader.words();
                let opened = call!(watch_open(&self.list, &mut self.record, &mut words));
                let line =
                    format!("o {} {} {} {}", opened.refusal, opened.pairs, digest_words(&words), digest(&self.record));
                (opened.refusal, line)
            }
            'f' => {
                let start = reader.number(8);
                let mut words = reader.words();
                let piece = reader.block();
                let fed = call!(watch_feed(&self.list, &mut self.record, start, &piece, &mut words));
                fed_line('f', fed, None, &words, &self.record)
            }
            'k' => {
                let bound = reader.number(8);
                let refusal =
                    call!(watch_check_table(&self.list, bound, &self.classes, &self.parts, &self.rows, &self.splits));
                (refusal, format!("k {refusal}"))
            }
            's' => {
                let (bound, start) = (reader.number(8), reader.number(8));
                let mut words = reader.words();
                let piece = reader.block();
                let fed = call!(watch_split_feed(
                    &self.list,
                    bound,
                    &self.classes,
                    &self.parts,
                    &self.rows,
                    &self.splits,
                    &mut self.record,
                    start,
                    &piece,
                    &mut words
                ));
                fed_line('s', fed, None, &words, &self.record)
            }
            'm' => {
                let refusal = call!(watch_fill_matrix(&self.list, &mut self.matrix));
                (refusal, format!("m {refusal} {}", digest(&self.matrix)))
            }
            'x' => {
                let start = reader.number(8);
                let mut words = reader.words();
                let piece = reader.block();
                let fed =
                    call!(watch_matrix_feed(&self.list, &self.matrix, &mut self.record, start, &piece, &mut words));
                fed_line('x', fed, None, &words, &self.record)
            }
            'i' => {
                let bound = reader.number(8);
                let refusal = call!(watch_fill_index(
                    &self.list,
                    bound,
                    &self.classes,
                    &self.parts,
                    &self.rows,
                    &self.splits,
                    &mut self.matrix
                ));
                (refusal, format!("i {refusal} {}", digest(&self.matrix)))
            }
            'p' => {
                let (split, start) = (reader.u32(), reader.number(8));
                let mut words = reader.words();
                let piece = reader.block();
                let stood = call!(watch_prepared_feed(
                    &self.splits,
                    &self.matrix,
                    split,
                    &mut self.record,
                    start,
                    &piece,
                    &mut words
                ));
                let raw::WatchStood { bytes, pairs, refusal, split, all } = stood;
                let fed = raw::WatchFed { bytes, pairs, refusal, all };
                fed_line('p', fed, Some(split), &words, &self.record)
            }
            _ => panic!("no such command: {name}"),
        };
        Some((name, refusal, line))
    }
}

#[test]
fn the_vectors_are_answered_line_by_line() {
    let mut state = State::default();
    let mut counts = BTreeMap::<(char, u32), usize>::new();
    let lines = replay("crates/list_replay/stdin", "crates/list_replay/stdout", |reader| {
        let (name, refusal, line) = state.run(reader)?;
        *counts.entry((name, refusal)).or_default() += 1;
        Some(line)
    });
    println!("vectors: {lines} lines, all equal");
    for (entry, name) in [
        ('c', "list check"),
        ('o', "opening"),
        ('f', "plain feed"),
        ('k', "table check"),
        ('s', "split feed"),
        ('m', "matrix filler"),
        ('x', "matrix feed"),
        ('i', "index filler"),
        ('p', "prepared feed"),
    ] {
        let of = counts.iter().filter(|((letter, _), _)| *letter == entry);
        let text: Vec<String> = of.clone().map(|((_, refusal), count)| format!("{refusal}:{count}")).collect();
        println!("  {entry}  {name:13} {:6}  {}", of.map(|(_, count)| count).sum::<usize>(), text.join(" "));
    }
}
