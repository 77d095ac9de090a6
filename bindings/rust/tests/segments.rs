//! Segments in any order, cut, resent and with other content: what is told is what one plain feed of the bytes that came first tells.

mod common;

use common::dice;

use dice::Dice;
use std::collections::BTreeMap;
use watch::{Flow, Held, List, Pair, Refusal, Segments, HELD_SIZE, MOST_SEGMENT};

const LIST: [u8; 40] =
    *b"\x01\x00\xFF\0\0\0\0\0\x01aa\0\0\0\x01\0\x01bb\0\x01\0\x02\0\x02\0\0\0\0\0\0\0\x03\0\0\0\x02\0\x07\0";

fn letters(dice: &mut Dice, count: usize) -> Vec<u8> {
    (0..count).map(|_| b"aab"[dice.below(3)]).collect()
}

/// Where a number lies from another: below 0 before it, above 0 ahead.
fn place(number: u32, next: u32) -> i64 {
    i64::from(number.wrapping_sub(next) as i32)
}

#[test]
fn first_come() {
    let list = List::check(&LIST).unwrap();
    let mut dice = Dice(20261116);
    for turn in 0..300 {
        let first = [0, 1000, u32::MAX - 40, 1 << 31][turn % 4].wrapping_add(dice.below(60) as u32);
        let stream = letters(&mut dice, 600);
        let mut came: BTreeMap<u64, u8> = BTreeMap::new();
        let mut told = Vec::new();
        let mut flow = Flow::open_all(&list, |pair| told.push(pair));
        let mut segments = Segments::new(first);
        for _ in 0..40 {
            let down = u64::from(flow.offset());
            let begin = (down + dice.below(50) as u64).saturating_sub(dice.below(40) as u64);
            let length = dice.below(30);
            let mut segment = stream[begin as usize..][..length].to_vec();
            if dice.below(4) == 0 {
                segment = letters(&mut dice, length);
            }
            // What is first for its place: the new end of a segment that is not ahead, up to what is held; or all of one that is held.
            let start = first.wrapping_add(begin as u32);
            let before = segments.held();
            let answer = segments.feed(&list, &mut flow, start, &segment, |pair| told.push(pair));
            let held = segments.held();
            if begin <= down || (held.length > 0 && held != before) {
                for (i, &byte) in segment.iter().enumerate() {
                    if begin + i as u64 >= down {
                        came.entry(begin + i as u64).or_insert(byte);
                    }
                }
            }
            if let Err(error) = answer {
                assert_eq!(error.refusal(), Refusal::Segment);
                assert!(place(start, segments.next(&flow)) > 0);
            }
        }
        let down: Vec<u8> = (0..u64::from(flow.offset())).map(|i| came[&i]).collect();
        let mut once = Vec::new();
        let mut plain = Flow::open_all(&list, |pair| once.push(pair));
        plain.feed_all(&list, 0, &down, |pair| once.push(pair)).unwrap();
        assert_eq!(told, once);
        assert_eq!(flow.as_bytes(), plain.as_bytes());
    }
}

#[test]
fn limits() {
    let list = List::check(&LIST).unwrap();
    let flow = Flow::open_all(&list, |_| ());
    let mut segments = Segments::new(7);
    assert_eq!(segments.take(&flow, 7, &vec![0; MOST_SEGMENT]), Ok(()));
    assert_eq!(segments.due(&flow, 7, &vec![0; MOST_SEGMENT]).len(), MOST_SEGMENT);
    assert_eq!(segments.take(&flow, 7, &vec![0; MOST_SEGMENT + 1]), Err(Refusal::Segment));
    assert_eq!(segments.due(&flow, 7, &vec![0; MOST_SEGMENT + 1]), b"");
    assert_eq!(segments.take(&flow, 8, &vec![1; HELD_SIZE + 1]), Err(Refusal::Segment));
    assert_eq!(segments.held(), Held::default());
    // Half the circle ahead counts as before: dropped. One less is held, and then nothing else is.
    assert_eq!(segments.take(&flow, 7 + (1 << 31), b"x"), Ok(()));
    assert_eq!(segments.held().length, 0);
    assert_eq!(segments.take(&flow, 6 + (1 << 31), &vec![1; HELD_SIZE]), Ok(()));
    assert_eq!(segments.held(), Held { start: 6 + (1 << 31), length: HELD_SIZE as u32 });
    assert_eq!(segments.buffer(), &[1; HELD_SIZE]);
    assert_eq!(segments.take(&flow, 8, b"x"), Err(Refusal::Segment));
    assert_eq!(segments.take(&flow, 8, b""), Ok(()));
}

#[test]
fn killed() {
    // The look by look order: buffer, place, feed, pairs, record. Killed before each of the writes, the flow goes on from what is saved.
    let list = List::check(&LIST).unwrap();
    let sent: [(u32, &[u8]); 6] = [(0, b"a"), (3, b"ba"), (0, b"ab"), (1, b"baX"), (3, b"ba"), (2, b"aba")];
    let run = |stop: usize| {
        let (mut record, mut place, mut buffer) =
            (*Flow::open_all(&list, |_| ()).as_bytes(), Held::default(), [0; HELD_SIZE]);
        let mut told: Vec<Pair> = Vec::new();
        let mut writes = 0;
        // After the kill the sender sends all of it again.
        for round in 0..2 {
            let mut flow = Flow::from_bytes(record);
            told.retain(|pair| pair.offset <= flow.offset());
            let mut segments = Segments::from_saved(0, place, buffer);
            'line: for (start, segment) in sent {
                loop {
                    let taken = segments.take(&flow, start, segment);
                    for write in 0..2 {
                        if round == 0 && writes == stop {
                            break 'line;
                        }
                        writes += 1;
                        match write {
                            0 => buffer = *segments.buffer(),
                            _ => place = segments.held(),
                        }
                    }
                    let piece = segments.due(&flow, start, segment).to_vec();
                    if piece.is_empty() {
                        let _ = taken;
                        break;
                    }
                    let offset = u64::from(flow.offset());
                    flow.feed_all(&list, offset, &piece, |pair| told.push(pair)).unwrap();
                    if round == 0 && writes == stop {
                        break 'line;
                    }
                    writes += 1;
                    record = *flow.as_bytes();
                }
            }
        }
        (told, Flow::from_bytes(record).offset())
    };
    for stop in 0..60 {
        assert_eq!(
            run(stop),
            (vec![Pair { signature: 7, offset: 2 }, Pair { signature: 7, offset: 4 }], 5),
            "killed before write {stop}"
        );
    }
}
