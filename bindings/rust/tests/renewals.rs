//! Renewals: a flow that is renewed tells, with the offsets of the renewals added, what one that is not renewed tells.

mod common;

use common::dice;

use dice::Dice;
use watch::{Flow, List, Refusal, Segments, FLOW_SIZE};

const LIST: [u8; 40] =
    *b"\x01\x00\xFF\0\0\0\0\0\x01aa\0\0\0\x01\0\x01bb\0\x01\0\x02\0\x02\0\0\0\0\0\0\0\x03\0\0\0\x02\0\x07\0";

#[test]
fn as_if_never_renewed() {
    let list = List::check(&LIST).unwrap();
    let mut dice = Dice(20261116);
    for _ in 0..300 {
        let count = dice.below(200);
        let stream: Vec<u8> = (0..count).map(|_| b"aab"[dice.below(3)]).collect();
        let mut once = Vec::new();
        let mut whole = Flow::open_all(&list, |pair| once.push((pair.signature, u64::from(pair.offset))));
        whole.feed_all(&list, 0, &stream, |pair| once.push((pair.signature, u64::from(pair.offset)))).unwrap();
        let (mut told, mut before, mut at) = (Vec::new(), 0u64, 0usize);
        let mut flow = Flow::open_all(&list, |pair| told.push((pair.signature, u64::from(pair.offset))));
        while at < stream.len() {
            let end = at + dice.from(1, stream.len() - at);
            let start = u64::from(flow.offset());
            flow.feed_all(&list, start, &stream[at..end], |pair| {
                told.push((pair.signature, before + u64::from(pair.offset)))
            })
            .unwrap();
            at = end;
            if dice.once_in(2) {
                before += flow.renew().unwrap();
                assert_eq!((flow.offset(), flow.rows_read()), (0, 0));
            }
        }
        assert_eq!(told, once);
        assert_eq!(flow.as_bytes()[..128], whole.as_bytes()[..128]);
        assert_eq!(before + u64::from(flow.offset()), stream.len() as u64);
    }
}

#[test]
fn past_the_largest_offset() {
    let list = List::check(&LIST).unwrap();
    let mut bytes = Flow::open_all(&list, |_| ()).into_bytes();
    bytes[128..132].copy_from_slice(&u32::MAX.to_le_bytes());
    let mut flow = Flow::from_bytes(bytes);
    assert_eq!(flow.feed_all(&list, u64::from(u32::MAX), b"ab", |_| ()), Err(Refusal::TooLong));
    assert_eq!(flow.renew(), Ok(u64::from(u32::MAX)));
    let mut told = Vec::new();
    flow.feed_all(&list, 0, b"ab", |pair| told.push((pair.signature, pair.offset))).unwrap();
    assert_eq!(told, [(7, 2)]);
}

#[test]
fn refused() {
    let list = List::check(&LIST).unwrap();
    let opened = Flow::open_all(&list, |_| ()).into_bytes();
    for place in (132..136).chain(136..144) {
        let mut bytes: [u8; FLOW_SIZE] = opened;
        bytes[place] = 1;
        let mut flow = Flow::from_bytes(bytes);
        assert_eq!(flow.renew(), Err(Refusal::FlowRecord));
        assert_eq!(flow.as_bytes(), &bytes);
    }
}

#[test]
fn segments_go_on() {
    // A segment that ends past the largest offset is refused with 6, once and again; renewed, the flow takes it, and what is held behind it.
    let list = List::check(&LIST).unwrap();
    let mut bytes = Flow::open_all(&list, |_| ()).into_bytes();
    bytes[128..132].copy_from_slice(&u32::MAX.to_le_bytes());
    let mut flow = Flow::from_bytes(bytes);
    let mut segments = Segments::new(1000);
    let next = segments.next(&flow);
    let mut told = Vec::new();
    segments.feed(&list, &mut flow, next.wrapping_add(3), b"b", |_| panic!("it is held")).unwrap();
    for _ in 0..2 {
        let refused = segments.feed(&list, &mut flow, next, b"aba", |_| panic!("nothing is told")).unwrap_err();
        assert_eq!(refused.refusal(), Refusal::TooLong);
        assert_eq!((flow.as_bytes(), segments.held().length), (&bytes, 1));
    }
    assert_eq!(segments.renew(&mut flow), Ok(u64::from(u32::MAX)));
    assert_eq!(segments.next(&flow), next);
    segments.feed(&list, &mut flow, next, b"aba", |pair| told.push((pair.signature, pair.offset))).unwrap();
    assert_eq!((told, flow.offset(), segments.held().length), (vec![(7, 2), (7, 4)], 4, 0));
}
