//! Many texts in one list: the pairs of random texts compiled together are those of each text by itself, whatever is joined first and whether or not the
//! lists are folded; and the refusals 27 and 28, with the limits on both sides.

mod common;

use common::dice;

use dice::Dice;
use std::collections::BTreeSet;
use watch::{raw, CollectError, Flow, List, Pair, Refusal, MOST_LIST, MOST_RECORDS, RECORD_SIZE};

const TEXTS: [&[u8]; 10] = [b"ab", b"ac", b"a+b", b"^ab", b"^(a|b)c", b"(ab)*c", b"a.b", b"[a-c]{2,4}", b"^", b"b"];

fn told(list: &List, piece: &[u8]) -> BTreeSet<(u32, u32)> {
    let mut pairs = BTreeSet::new();
    let mut tell = |pair: Pair| assert!(pairs.insert((pair.offset, pair.signature)), "told twice");
    let mut flow = Flow::open_all(list, &mut tell);
    flow.feed_all(list, 0, piece, &mut tell).unwrap();
    pairs
}

#[test]
fn the_pairs_are_those_of_the_texts() {
    let mut dice = Dice(20_261_116);
    for _ in 0..300 {
        let count = 1 + dice.below(6);
        let texts: Vec<(&[u8], u8)> =
            (0..count).map(|_| (TEXTS[dice.below(TEXTS.len())], dice.below(4) as u8)).collect();
        let all = List::compile_all(texts.iter().copied()).unwrap();
        let ones: Vec<_> = texts.iter().map(|&(text, signature)| List::compile(text, signature).unwrap()).collect();
        let backward = ones
            .iter()
            .rev()
            .skip(1)
            .fold(ones[ones.len() - 1].clone(), |front, one| front.list().join(&one.list()).unwrap());
        let folded = backward.list().fold();
        for _ in 0..8 {
            let piece: Vec<u8> = (0..dice.below(9)).map(|_| b"abcd"[dice.below(4)]).collect();
            let due: BTreeSet<_> = ones.iter().flat_map(|one| told(&one.list(), &piece)).collect();
            assert_eq!(told(&all.list(), &piece), due, "{texts:?} {piece:?}");
            assert_eq!(told(&backward.list(), &piece), due, "{texts:?} {piece:?}");
            assert_eq!(told(&folded.list(), &piece), due, "{texts:?} {piece:?}");
        }
        assert!(folded.list().records() <= backward.list().records());
    }
}

#[test]
fn refusals_change_nothing() {
    let start = [2, 0, 0, 0, 0, 0, 0, 0];
    let join = |list: &mut [u8], used: u64, other: &[u8]| {
        let before = list.to_vec();
        // SAFETY: each pointer and length is that of a slice that is borrowed over the call, and the list is borrowed as mutable.
        let answer = unsafe { raw::watch_join(list.as_mut_ptr(), list.len(), used, other.as_ptr(), other.len()) };
        if answer.refusal != 0 {
            assert_eq!((answer.length, &before[..]), (0, &list[..]));
        }
        (answer.refusal, answer.length)
    };
    let accept = [3, 0, 0, 0, 0, 0, 5, 0];
    let pair = [start, accept].concat();
    let mut lent = [pair.clone(), vec![7; 8]].concat();
    assert_eq!(join(&mut lent, 0, &pair), (1, 0));
    assert_eq!(join(&mut lent, 24, &pair), (2, 0));
    assert_eq!(join(&mut lent, u64::MAX, &pair), (2, 0));
    assert_eq!(join(&mut lent, 16, &accept), (27, 0));
    assert_eq!(join(&mut lent[..16], 17, &pair), (28, 0));
    assert_eq!(join(&mut lent[..23], 16, &pair), (28, 0));
    assert_eq!(join(&mut lent, 16, &pair), (0, 24)); // both starts are one, so an accept is added
    let most = [start.to_vec(), accept.repeat(MOST_RECORDS - 1)].concat();
    let mut full = [most.clone(), vec![0; 8]].concat();
    assert_eq!(join(&mut full, MOST_LIST as u64, &pair), (28, 0));
    assert_eq!(join(&mut full, MOST_LIST as u64, &start), (0, MOST_LIST as u64));
    let high = [2, 0, 0, 0, 0, 0, 255, 3];
    let edge = [1, 0, 255, 0, 255, 3, 255, 3];
    let mut list = [high, edge, [0; 8], [0; 8], [0; 8]].concat();
    assert_eq!(join(&mut list, 16, &start), (28, 0)); // state 1,024 would be needed
    assert_eq!(join(&mut list, 16, &[start, [1, 0, 255, 0, 0, 0, 0, 0]].concat()), (0, 16));
    let both = List::check(&list[..16]).unwrap();
    assert_eq!(both.fold_in(&mut [0; 15]), Err(Refusal::ListRoom));
    assert_eq!(both.fold_in(&mut [0; 16]).map(|folded| folded.records() * RECORD_SIZE), Ok(16));
}

#[test]
fn texts_that_do_not_fit() {
    let error = List::compile_all([(b"a".as_slice(), 1), (b"(", 2)]).unwrap_err();
    assert!(matches!(error, CollectError::Text { index: 1, .. }), "{error}");
    let long: Vec<Vec<u8>> = (0..5).map(|i| format!("{}{{300,300}}", (b'a' + i) as char).into_bytes()).collect();
    let error = List::compile_all(long.iter().map(|text| (text.as_slice(), 1))).unwrap_err();
    assert!(matches!(error, CollectError::Together { index: 3, .. }), "{error}");
}
