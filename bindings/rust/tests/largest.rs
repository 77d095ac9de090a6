//! Tables of the largest size: the most parts, the most classes and the most splits. One is accepted, ones with a single fault are
//! refused, ones a size larger too; then flows run through it. All is compared with the ordinary matcher.
//!
//! The automaton has four wheels of eight states. A frontier has one state of each, so there are 8 × 8 × 8 × 8 frontiers, as many as a table
//! may have splits, and each byte turns each wheel. Parts are one, two or three states of different wheels; a split is a frontier, covered
//! by as many parts as it has slots or fewer. With `WATCH_CALLS` at 500,000 or more the same is run again with a list of the most
//! records.

mod common;

use common::{dice, number, ordinary};

use dice::Dice;
use ordinary::{bytes_of, Automaton, Set};
use std::collections::BTreeMap;
use std::time::Instant;
use watch::{Flow, List, Refusal, Table, TableLists};
use watch::{
    BYTE_VALUES, MOST_BOUND, MOST_CLASS, MOST_PARTS, MOST_RECORDS, MOST_SPLITS, ROWS_AT, SET_SIZE, SLOTS, SPLIT_SIZE,
    STATES, UNUSED,
};

/// The most classes.
const CLASSES: usize = MOST_CLASS as usize + 1;

/// The neighbours that share a class.
const ALIKE: usize = BYTE_VALUES / CLASSES;

/// The wheels, and the states of each.
const WHEELS: usize = 4;
const TEETH: usize = 8;

/// The states of the wheels, spread over all bytes of a set.
fn state(wheel: usize, at: usize) -> u16 {
    let i = TEETH * wheel + at;
    (STATES / (WHEELS * TEETH) * i + (5 * i + 3) % 8) as u16
}

/// A record: four bytes and two numbers of two bytes.
fn record(front: [u8; 4], middle: u16, last: u16) -> Vec<u8> {
    [&front[..], &middle.to_le_bytes(), &last.to_le_bytes()].concat()
}

/// The list: on each class the first wheel turns in a way of its own; the others turn on larger ranges of bytes.
fn list(dice: &mut Dice, records: usize) -> Vec<u8> {
    let mut list = Vec::new();
    let mut any = |dice: &mut Dice, wheel: usize, ranges: usize| {
        for range in 0..ranges {
            for at in 0..TEETH {
                let bytes = BYTE_VALUES / ranges;
                let (low, high) = (range * bytes, (range + 1) * bytes - 1);
                // The first wheel tells all classes apart: its states 0 and 1 turn to range mod 8 and range div 8.
                let to = match (wheel, at) {
                    (0, 0) => range % TEETH,
                    (0, 1) => range / TEETH,
                    _ => dice.below(TEETH),
                };
                list.push(record([1, low as u8, high as u8, 0], state(wheel, at), state(wheel, to)));
            }
        }
    };
    any(dice, 0, CLASSES);
    any(dice, 1, 8);
    any(dice, 2, 4);
    any(dice, 3, 2);
    for wheel in 0..WHEELS {
        list.push(record([2, 0, 0, 0], 0, state(wheel, 0)));
    }
    for wheel in 0..WHEELS {
        for at in 0..3 {
            list.push(record([3, 0, 0, 0], state(wheel, at), (TEETH * wheel + at) as u16));
            list.push(record([3, 0, 0, 0], state(wheel, at), 200));
        }
    }
    while list.len() < records {
        let again = dice.pick(&list);
        list.push(again);
    }
    dice.shuffle(&mut list);
    list.concat()
}

#[derive(Clone)]
struct Lists {
    classes: Vec<u8>,
    parts: Vec<u8>,
    rows: Vec<u8>,
    splits: Vec<u8>,
}

impl Lists {
    fn lent(&self) -> TableLists<'_> {
        TableLists { classes: &self.classes, parts: &self.parts, rows: &self.rows, splits: &self.splits }
    }
}

fn largest(dice: &mut Dice, automaton: &Automaton) -> Lists {
    // All single states, all pairs of states, and as many threes as there is place for.
    let mut parts: Vec<Set> = Vec::new();
    let mut threes: Vec<Set> = Vec::new();
    // A choice has a digit for each wheel: a state of it, or none.
    const DIGITS: usize = TEETH + 1;
    for choice in 0..DIGITS.pow(WHEELS as u32) {
        let digit = |wheel: usize| choice / DIGITS.pow(wheel as u32) % DIGITS;
        let set: Set = (0..WHEELS).filter(|&w| digit(w) < TEETH).map(|w| state(w, digit(w))).collect();
        match set.len() {
            1 | 2 => parts.push(set),
            3 => threes.push(set),
            _ => (),
        }
    }
    dice.shuffle(&mut threes);
    parts.extend(threes.into_iter().take(MOST_PARTS - parts.len()));
    dice.shuffle(&mut parts);
    assert_eq!(parts.len(), MOST_PARTS);
    let place: BTreeMap<&Set, u16> = parts.iter().enumerate().map(|(i, part)| (part, i as u16)).collect();

    let mut rows = Vec::new();
    for part in &parts {
        for class in 0..CLASSES {
            rows.extend(bytes_of(&automaton.step(part, (ALIKE * class) as u8)));
        }
    }

    // Each frontier, covered by parts drawn at random, with the single states that are still missing at the end.
    let mut splits = Vec::new();
    assert_eq!(TEETH.pow(WHEELS as u32), MOST_SPLITS);
    for choice in 0..MOST_SPLITS {
        let members: [u16; WHEELS] =
            std::array::from_fn(|wheel| state(wheel, choice / TEETH.pow(wheel as u32) % TEETH));
        let frontier: Set = members.into_iter().collect();
        let slots = loop {
            let (mut slots, mut covered) = (Vec::new(), Set::new());
            let subsets = dice.from(0, 3);
            for _ in 0..subsets {
                let subset: Set = members.into_iter().filter(|_| dice.below(5) < 3).collect();
                if let Some(&slot) = place.get(&subset) {
                    slots.push(slot);
                    covered.extend(subset);
                }
            }
            slots.extend(frontier.difference(&covered).map(|&member| place[&Set::from([member])]));
            slots.sort_unstable();
            slots.dedup();
            if slots.len() <= SLOTS {
                break slots;
            }
        };
        let mut record = bytes_of(&frontier).to_vec();
        (0..SLOTS).for_each(|i| record.extend(slots.get(i).copied().unwrap_or(UNUSED).to_le_bytes()));
        splits.push(record);
    }
    splits.sort();
    Lists {
        classes: (0..BYTE_VALUES).map(|byte| (byte / ALIKE) as u8).collect(),
        parts: parts.iter().flat_map(bytes_of).collect(),
        rows,
        splits: splits.concat(),
    }
}

fn run(records: usize) {
    let mut dice = Dice(77);
    let list = list(&mut dice, records);
    let automaton = Automaton::read(&list);
    let nfa = automaton.as_ref().unwrap();
    let good = largest(&mut dice, nfa);
    let sizes = (good.classes.len(), good.parts.len(), good.rows.len(), good.splits.len());
    let most = (BYTE_VALUES, MOST_PARTS * SET_SIZE, MOST_PARTS * CLASSES * SET_SIZE, MOST_SPLITS * SPLIT_SIZE);
    assert_eq!(sizes, most);
    let last = (MOST_SPLITS - 1) * SPLIT_SIZE;

    // The one that is right, and each with a single fault.
    let mut cases: Vec<(&str, u64, u32, Lists)> = vec![("as it is", MOST_BOUND, 0, good.clone())];
    let mut fault_at = |name, bound, refusal, spoil: &dyn Fn(&mut Lists)| {
        let mut lists = good.clone();
        spoil(&mut lists);
        cases.push((name, bound, refusal, lists));
    };
    fault_at("over the largest bound", MOST_BOUND + 1, 7, &|_| ());
    fault_at("under the largest bound", MOST_BOUND - 1, 9, &|_| ());
    let mut fault = |name, refusal, spoil: &dyn Fn(&mut Lists)| fault_at(name, MOST_BOUND, refusal, spoil);
    fault("a part too many", 8, &|t| {
        t.parts.extend([0; SET_SIZE]);
        t.rows.extend([0; CLASSES * SET_SIZE]);
    });
    fault("a split too many", 8, &|t| t.splits.extend([255; SPLIT_SIZE]));
    fault("a class too many", 8, &|t| *t.classes.last_mut().unwrap() = MOST_CLASS + 1);
    fault("a row too few", 8, &|t| t.rows.truncate(t.rows.len() - SET_SIZE));
    fault("the last split twice over the one before", 9, &|t| {
        t.splits.copy_within(last.., last - SPLIT_SIZE);
    });
    fault("a slot that names no part in the last split", 9, &|t| {
        let slots = &mut t.splits[last + SET_SIZE..];
        slots.fill(255);
        slots[..2].copy_from_slice(&(MOST_PARTS as u16).to_le_bytes());
    });
    fault("the last bit of the last row", 10, &|t| *t.rows.last_mut().unwrap() ^= 128);
    fault("the last byte in another class", 10, &|t| *t.classes.last_mut().unwrap() = 0);
    fault("the last split with its first slot alone", 11, &|t| {
        // No part is a whole frontier.
        t.splits[last + SET_SIZE + 2..].fill(255);
    });
    let without = |t: &mut Lists, set: &[u8; SET_SIZE]| {
        let at = SPLIT_SIZE * t.splits.chunks(SPLIT_SIZE).position(|split| split[..SET_SIZE] == *set).unwrap();
        t.splits.drain(at..at + SPLIT_SIZE);
    };
    let start = bytes_of(&nfa.starts);
    fault("without the start set", 12, &|t| without(t, &start));
    let reached = bytes_of(&nfa.step(&nfa.starts, 255));
    assert_ne!(reached, start);
    fault("without a set that is reached", 13, &|t| without(t, &reached));

    let checked = List::check(&list).unwrap();
    println!("largest: a list of {} records", checked.records());
    for (name, bound, refusal, lists) in &cases {
        let before = Instant::now();
        let got = Table::check(&checked, *bound, lists.lent()).map_or_else(Refusal::number, |_| 0);
        let took = before.elapsed();
        let table = ordinary::Table::read(&lists.classes, &lists.parts, &lists.rows, &lists.splits);
        assert_eq!(ordinary::check_table(&automaton, *bound, &table), *refusal, "the ordinary matcher, {name}");
        assert_eq!(got, *refusal, "{name}");
        println!("  {refusal:2}  {name} ({:.2} s)", took.as_secs_f64());
    }

    // Flows through the right one, in pieces of any length, with any room.
    let table = Table::from_saved(&checked, MOST_BOUND, good.lent());
    let decoded = ordinary::Table::read(&good.classes, &good.parts, &good.rows, &good.splits);
    let (mut feeds, mut bytes, mut pairs) = (0, 0, 0);
    for _ in 0..4 {
        let mut split = Flow::open_all(&checked, |_| ());
        let mut plain = Flow::open_all(&checked, |_| ());
        let mut record = split.as_bytes().to_vec();
        for _ in 0..40 {
            let piece: Vec<u8> = (0..dice.from(0, 40)).map(|_| dice.byte()).collect();
            let mut words = vec![7; dice.from(0, 60)];
            let mut expected_words = words.clone();
            let start = u64::from(split.offset());
            let fed = split.split_feed(&table, start, &piece, &mut words).expect("an accepted table never halts");
            let expected =
                ordinary::split_feed(&automaton, MOST_BOUND, &decoded, &mut record, start, &piece, &mut expected_words);
            assert_eq!(
                (0, fed.bytes as u64, fed.pairs as u64, fed.all),
                (expected.refusal, expected.bytes, expected.pairs, expected.all)
            );
            assert_eq!((&words, &split.as_bytes()[..]), (&expected_words, &record[..]));
            // The plain feed tells the same pairs and comes to the same frontier.
            let mut plain_words = vec![7; words.len()];
            let plain_fed = plain.feed(&checked, start, &piece, &mut plain_words).unwrap();
            assert_eq!((plain_fed, plain_words), (fed, words));
            assert_eq!(plain.as_bytes()[..ROWS_AT], split.as_bytes()[..ROWS_AT]);
            assert!(split.rows_read() <= MOST_BOUND * u64::from(split.offset()));
            (feeds, bytes, pairs) = (feeds + 2, bytes + 2 * fed.bytes, pairs + 2 * fed.pairs);
        }
    }
    println!("  {feeds} feeds, {bytes} bytes and {pairs} pairs, split and plain alike");
}

#[test]
fn a_table_of_the_largest_size() {
    run(0);
}

#[test]
fn a_table_of_the_largest_size_on_the_longest_list() {
    let calls = number("WATCH_CALLS", 0);
    if calls >= 500_000 {
        run(MOST_RECORDS);
    } else {
        println!("largest: the longest list is left out below 500,000 WATCH_CALLS");
    }
}
