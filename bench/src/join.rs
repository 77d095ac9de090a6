//! 64 texts of orders as one list, by the proved library: each compiled, and joined to those before it; and the same folded after each join.
use crate::call::call;
use crate::sizes::{MOST_RECORDS, RECORD_SIZE};

/// The texts, a line each; signatures count from 0.
const TEXTS: &str = include_str!("../traffic/plain64.txt");

/// A feeder's line, and one with many pairs.
pub const FEEDER: &[u8] = include_bytes!("../traffic/plain64-feeder");
pub const DENSE: &[u8] = include_bytes!("../traffic/plain64-dense");

const ROOM: usize = MOST_RECORDS * RECORD_SIZE;

fn compiled(text: &[u8], signature: u8) -> Vec<u8> {
    let mut list = vec![0; ROOM];
    let answer = call!(watch_compile(&text, signature, &mut list));
    assert_eq!((answer.refusal, answer.place), (0, 0), "a good text");
    list.truncate(answer.length as usize);
    list
}

fn joined_with(mut list: Vec<u8>, other: &[u8]) -> Vec<u8> {
    let used = list.len() as u64;
    list.resize(ROOM, 0);
    let answer = call!(watch_join(&mut list, used, &other));
    assert_eq!(answer.refusal, 0, "two lists that can be joined");
    list.truncate(answer.length as usize);
    list
}

fn fold(list: Vec<u8>) -> Vec<u8> {
    let mut folded = vec![0; list.len()];
    let answer = call!(watch_fold(&list, &mut folded));
    assert_eq!(answer.refusal, 0, "a list that can be folded");
    folded.truncate(answer.length as usize);
    folded
}

fn collected(after: fn(Vec<u8>) -> Vec<u8>) -> Vec<u8> {
    let lists = TEXTS.lines().enumerate().map(|(i, text)| compiled(text.as_bytes(), i as u8));
    lists.reduce(|list, other| after(joined_with(list, &other))).expect("texts")
}

/// The list of all texts, joined.
fn joined() -> Vec<u8> {
    collected(|list| list)
}

/// The same, folded after each join.
fn folded() -> Vec<u8> {
    collected(fold)
}

/// Both, by name.
pub const LISTS: [(&str, fn() -> Vec<u8>); 2] = [("64 texts joined", joined), ("64 texts joined and folded", folded)];
