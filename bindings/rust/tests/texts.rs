//! Signature texts: replays their outside vectors, `crates/text_replay/stdin`, through the archive and compares each line with
//! `crates/text_replay/stdout`, every buffer a heap block of exactly its length; and compiles random texts, feeds random bytes in random pieces, and
//! compares the pairs with the ends that the text's tree gives. `WATCH_VECTORS` may name a smaller number of lines, `WATCH_CALLS` the number of
//! random calls (20,000 unless it is set), of which there is a text for each four hundred.

mod common;

use common::dice::Dice;
use common::number;
use common::stream::{digest, digest_words, lent_bytes, replay, Reader};
use std::collections::BTreeSet;
use watch::{raw, CompileError, Flow, List, Pair, Refusal, Table, FLOW_SIZE, MOST_LIST};

/// What the commands work on.
#[derive(Default)]
struct State {
    text: Box<[u8]>,
    list: Box<[u8]>,
}

impl State {
    /// Runs one command; those that answer give their line.
    fn run(&mut self, reader: &mut Reader) -> Option<String> {
        match reader.take(1)[0] {
            b'T' => {
                self.text = reader.block();
                None
            }
            b'k' => Some(self.compile(reader.take(1)[0], reader.length())),
            b'm' => Some(self.matched(reader.words(), &reader.block())),
            other => panic!("no such command: {other}"),
        }
    }

    fn compile(&mut self, signature: u8, lent: usize) -> String {
        let mut list = lent_bytes(lent);
        let text = &self.text;
        // SAFETY: pointers and lengths are those of blocks that live over the call and do not overlap.
        let raw::WatchCompiled { place, length, refusal } =
            unsafe { raw::watch_compile(text.as_ptr(), text.len(), signature, list.as_mut_ptr(), list.len()) };
        self.list = list[..length as usize].into();
        format!("k {refusal} {place} {length} {}", digest(&list))
    }

    fn matched(&self, mut words: Box<[u32]>, piece: &[u8]) -> String {
        let (list, length, mut record) = (self.list.as_ptr(), self.list.len(), [0; FLOW_SIZE]);
        let flow = record.as_mut_ptr();
        // SAFETY: as above.
        let opened = unsafe { raw::watch_open(list, length, flow, FLOW_SIZE, words.as_mut_ptr(), words.len()) };
        let rest = &mut words[2 * opened.pairs as usize..];
        // SAFETY: as above.
        let fed = unsafe {
            raw::watch_feed(
                list,
                length,
                flow,
                FLOW_SIZE,
                0,
                piece.as_ptr(),
                piece.len(),
                rest.as_mut_ptr(),
                rest.len(),
            )
        };
        let told = digest_words(&words);
        let all = u32::from(fed.all);
        format!("m {} {} {} {} {} {all} {told}", opened.refusal, opened.pairs, fed.refusal, fed.bytes, fed.pairs)
    }
}

#[test]
fn vectors() {
    let mut state = State::default();
    let lines = replay("crates/text_replay/stdin", "crates/text_replay/stdout", |reader| state.run(reader));
    println!("texts: {lines} lines as expected");
}

/// A text's tree: what its parts match, said once more and without positions.
enum Tree {
    Byte(Box<[bool; 256]>),
    Row(Vec<Tree>),
    Either(Vec<Tree>),
    /// From so many times to so many, or to any number.
    Times(Box<Tree>, usize, Option<usize>),
}

impl Tree {
    /// Where matches that begin at some places may end.
    fn after(&self, data: &[u8], froms: &BTreeSet<usize>) -> BTreeSet<usize> {
        match self {
            Tree::Byte(takes) => {
                froms.iter().filter(|&&at| at < data.len() && takes[usize::from(data[at])]).map(|at| at + 1).collect()
            }
            Tree::Row(items) => items.iter().fold(froms.clone(), |froms, item| item.after(data, &froms)),
            Tree::Either(rows) => rows.iter().flat_map(|row| row.after(data, froms)).collect(),
            Tree::Times(item, least, most) => {
                let (mut ends, mut froms) = (BTreeSet::new(), froms.clone());
                // No more rounds than the bytes and the least lead anywhere new.
                for round in 0..=most.unwrap_or(least + data.len()) {
                    if froms.is_empty() {
                        break;
                    }
                    if round >= *least {
                        ends.extend(&froms);
                    }
                    froms = item.after(data, &froms);
                }
                ends
            }
        }
    }

    fn positions(&self) -> usize {
        match self {
            Tree::Byte(_) => 1,
            Tree::Row(parts) | Tree::Either(parts) => parts.iter().map(Tree::positions).sum(),
            Tree::Times(item, _, most) => most.unwrap_or(1) * item.positions(),
        }
    }
}

/// A class, as text and as the bytes that it takes.
fn class(dice: &mut Dice, text: &mut Vec<u8>) -> Tree {
    let (mut takes, negated) = ([false; 256], dice.once_in(3));
    text.extend(if negated { &b"[^"[..] } else { b"[" });
    for _ in 0..dice.from(1, 3) {
        let low = dice.pick(&[b'a', b'b', b'c', 0, 255, 32]);
        let high = if dice.once_in(2) { low.max(dice.pick(&[b'a', b'b', b'd', 10, 255])) } else { low };
        if dice.once_in(6) {
            text.extend(br"\s");
            [9, 10, 11, 12, 13, 32].iter().for_each(|&byte| takes[byte] = true);
            continue;
        }
        text.extend(format!("\\x{low:02X}").bytes());
        if high > low || dice.once_in(4) {
            text.extend(format!("-\\x{high:02x}").bytes());
        }
        takes[usize::from(low)..=usize::from(high)].fill(true);
    }
    text.push(b']');
    Tree::Byte(Box::new(takes.map(|one| one != negated)))
}

fn atom(dice: &mut Dice, depth: usize, text: &mut Vec<u8>) -> Tree {
    let mut takes = [false; 256];
    match dice.below(if depth == 0 { 8 } else { 12 }) {
        0 => {
            text.push(b'.');
            takes = [true; 256];
        }
        1 => return class(dice, text),
        2 => {
            text.extend(br"\n");
            takes[10] = true;
        }
        3..=7 => {
            let byte = dice.pick(b"aabbc-,");
            text.push(byte);
            takes[usize::from(byte)] = true;
        }
        _ => {
            text.push(b'(');
            let inner = alternatives(dice, depth - 1, text);
            text.push(b')');
            return inner;
        }
    }
    Tree::Byte(Box::new(takes))
}

fn item(dice: &mut Dice, depth: usize, text: &mut Vec<u8>) -> Tree {
    let inner = Box::new(atom(dice, depth, text));
    let (least, most) = match dice.below(12) {
        0 => (0, None),
        1 => (1, None),
        2 => (0, Some(1)),
        3 | 4 => {
            let most = dice.below(5);
            (dice.from(0, most), Some(most))
        }
        _ => return *inner,
    };
    match (least, most, dice.once_in(4)) {
        (0, None, _) => text.push(b'*'),
        (_, None, _) => text.push(b'+'),
        (0, Some(1), false) => text.push(b'?'),
        (least, Some(most), _) => text.extend(format!("{{{least},{most:03}}}").bytes()),
    }
    Tree::Times(inner, least, most)
}

fn alternatives(dice: &mut Dice, depth: usize, text: &mut Vec<u8>) -> Tree {
    let mut rows = Vec::new();
    for i in 0..dice.from(1, 3) {
        if i > 0 {
            text.push(b'|');
        }
        rows.push(Tree::Row((0..dice.below(4)).map(|_| item(dice, depth, text)).collect()));
    }
    Tree::Either(rows)
}

/// The pairs that a flow tells, fed in random pieces.
fn told(dice: &mut Dice, list: &List, data: &[u8]) -> Vec<Pair> {
    let mut told = Vec::new();
    let mut flow = Flow::open_all(list, |pair| told.push(pair));
    let mut at = 0;
    while at < data.len() {
        let end = dice.from(at + 1, data.len());
        flow.feed_all(list, at as u64, &data[at..end], |pair| told.push(pair)).unwrap();
        at = end;
    }
    told
}

#[test]
fn random_texts() {
    let (mut dice, mut most) = (Dice(26), 0);
    for _ in 0..number("WATCH_CALLS", 20_000) / 400 {
        let (mut text, bound) = (Vec::new(), dice.once_in(2));
        let tree = alternatives(&mut dice, 3, &mut text);
        if tree.positions() > 200 {
            continue;
        }
        if bound {
            text.insert(0, b'^');
        }
        let signature = dice.byte();
        let compiled = List::compile(&text, signature).unwrap_or_else(|error| panic!("{text:?}: {error}"));
        let list = compiled.list();
        assert_eq!(List::check(list.as_bytes()), Ok(list));
        most = most.max(list.records());
        for _ in 0..8 {
            let length = dice.below(20);
            let data: Vec<u8> = (0..length).map(|_| dice.pick(b"aaabbbc\n -,\xff\0")).collect();
            let froms = if bound { BTreeSet::from([0]) } else { (0..=data.len()).collect() };
            let due: Vec<Pair> = tree
                .after(&data, &froms)
                .into_iter()
                .map(|offset| Pair { signature: signature.into(), offset: offset as u32 })
                .collect();
            assert_eq!(told(&mut dice, &list, &data), due, "{:?} on {data:?}", String::from_utf8_lossy(&text));
        }
    }
    println!("texts: random texts of up to {most} records");
}

/// A compiled list goes the whole way: a table is built of it, and the check accepts that.
#[test]
fn tables() {
    let compiled = List::compile(br"[Ff][Ee][Ee][Dd] 9\n.*[Ff][Ee][Ee][Dd] 9\n", 9).unwrap();
    let list = compiled.list();
    let built = Table::build(&list).unwrap();
    assert!(Table::check(&list, 1, built.lists()).is_ok());
}

#[test]
fn refusals() {
    let mut lent = [7; 50];
    let error = List::compile_in(b"a{45,301}", 1, &mut lent).unwrap_err();
    assert_eq!((error.refusal(), error.place()), (Refusal::BadText, Some(7)));
    assert_eq!(error.to_string(), format!("{} (place 7)", Refusal::BadText));
    assert_eq!(List::compile_in(&[b'('; 17], 1, &mut lent), Err(CompileError::TooDeep));
    let error = List::compile_in(b"a{300,300}b{300,300}c{300,300}d{124,124}", 1, &mut lent).unwrap_err();
    assert_eq!((error, error.place(), Refusal::from(error).number()), (CompileError::TooBig, None, 21));
    assert_eq!(lent, [7; 50]);
    assert_eq!(List::compile_in(b"ab", 1, &mut lent).unwrap().as_bytes().len(), 40);
    assert_eq!(lent[40..], [7; 10]);
}

/// Texts that are long, or that would be if their repeats were written out, are answered soon.
#[test]
fn long_texts() {
    let nested = |inner: &str, mark: &str| (0..16).fold(inner.to_string(), |text, _| format!("({text}){mark}"));
    let compiled = List::compile(nested("", "{0,300}").as_bytes(), 3).unwrap();
    assert_eq!(compiled.list().records(), 3);
    assert_eq!(List::compile(nested("a", "{0,300}").as_bytes(), 3), Err(CompileError::TooBig));
    assert_eq!(List::compile(&b"()".repeat(1 << 19), 3).unwrap().list().records(), 3);
    assert_eq!(List::compile(&b"(".repeat(1 << 20), 3), Err(CompileError::TooDeep));
    let error = List::compile(&b"()*?".repeat(1 << 18), 3).unwrap_err();
    assert_eq!(error.place(), Some(3));
    let text = [&b"()".repeat(1 << 19)[..], b"("].concat();
    assert_eq!(List::compile(&text, 3).unwrap_err().place(), Some(text.len()));
}

/// The limits on both sides: 1,023 positions and 8,192 records.
#[test]
fn limits() {
    let text = |n: usize| format!("^a{{300,300}}b{{300,300}}c{{300,300}}d{{{n},{n}}}");
    assert_eq!(List::compile(text(123).as_bytes(), 3).unwrap().list().records(), 1025);
    assert_eq!(List::compile(text(124).as_bytes(), 3), Err(CompileError::TooBig));
    let text = |n: usize| format!("^(a?){{126,126}}|b{{{n},{n}}}");
    assert_eq!(List::compile(text(62).as_bytes(), 3).unwrap().as_bytes().len(), MOST_LIST);
    assert_eq!(List::compile(text(63).as_bytes(), 3), Err(CompileError::TooBig));
}
