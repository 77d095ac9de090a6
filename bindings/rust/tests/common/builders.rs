//! Random lists, tables, records and pieces: good ones, broken ones, and ones that are nonsense but well formed.

use super::dice::Dice;
use super::ordinary::{bytes_of, Automaton, Set};
use std::collections::{BTreeMap, BTreeSet, VecDeque};
use watch::{
    BYTE_VALUES, ENOUGH_WORDS, FLOW_SIZE, MOST_BOUND, MOST_CLASS, MOST_OFFSET, MOST_PARTS, MOST_RECORDS, OFFSET_AT,
    RECORD_SIZE, RESERVED_AT, ROWS_AT, SET_SIZE, SIGNATURES, SLOTS, SPLIT_SIZE, STATES, UNUSED,
};

// Lists.

/// A record: four bytes and two numbers of two bytes.
fn record(front: [u8; 4], middle: u16, last: u16) -> [u8; RECORD_SIZE] {
    let ([a, b], [c, d]) = (middle.to_le_bytes(), last.to_le_bytes());
    [front[0], front[1], front[2], front[3], a, b, c, d]
}

fn edge(low: u8, high: u8, either_case: bool, from: u16, to: u16) -> [u8; RECORD_SIZE] {
    record([1, low, high, u8::from(either_case)], from, to)
}

fn start(state: u16) -> [u8; RECORD_SIZE] {
    record([2, 0, 0, 0], 0, state)
}

fn accept(state: u16, signature: u16) -> [u8; RECORD_SIZE] {
    record([3, 0, 0, 0], state, signature)
}

fn any_state(dice: &mut Dice) -> u16 {
    dice.below(STATES) as u16
}

/// The letters that pieces and edges are mostly made of.
const LETTERS: &[u8] = b"abcdeABZ\x00\xFF";

/// A good list: some states, edges on letters and ranges, and accepts from none to all signatures at one state.
pub fn good_list(dice: &mut Dice) -> Vec<u8> {
    let states: Vec<u16> =
        (0..dice.from(1, 9)).map(|_| if dice.once_in(2) { dice.below(12) as u16 } else { any_state(dice) }).collect();
    let mut records = Vec::new();
    for _ in 0..dice.from(0, 2 * states.len() + 4) {
        let (from, to) = (dice.pick(&states), dice.pick(&states));
        let (low, high) = match dice.below(6) {
            0 => (0, 255),
            1 => {
                let (a, b) = (dice.byte(), dice.byte());
                (a.min(b), a.max(b))
            }
            2 => {
                let (a, b) = (dice.pick(LETTERS), dice.pick(LETTERS));
                (a.min(b), a.max(b))
            }
            _ => {
                let letter = dice.pick(LETTERS);
                (letter, letter)
            }
        };
        records.push(edge(low, high, dice.once_in(3), from, to));
    }
    if dice.once_in(2) {
        let state = dice.pick(&states);
        records.push(edge(0, 255, false, state, state));
    }
    for _ in 0..dice.from(1, 3) {
        records.push(start(dice.pick(&states)));
    }
    for _ in 0..dice.from(0, 6) {
        let signature = if dice.once_in(2) { dice.below(4) } else { dice.below(SIGNATURES) };
        records.push(accept(dice.pick(&states), signature as u16));
    }
    if dice.once_in(25) {
        let state = dice.pick(&states);
        let few = dice.from(1, SIGNATURES);
        records.extend((0..few).map(|signature| accept(state, signature as u16)));
    }
    if dice.once_in(150) {
        // A long list: exactly the most records, or about that.
        let most = if dice.once_in(2) { MOST_RECORDS } else { dice.from(1000, MOST_RECORDS - 1) };
        while records.len() < most {
            let again = dice.pick(&records);
            records.push(again);
        }
    }
    if dice.once_in(4) {
        let again = dice.pick(&records);
        records.push(again);
        records.truncate(MOST_RECORDS);
        if !records.iter().any(|record| record[0] == 2) {
            records[0] = start(states[0]);
        }
    }
    dice.shuffle(&mut records);
    records.concat()
}

/// A list with one or two faults in it (some of which do no harm).
pub fn broken_list(dice: &mut Dice) -> Vec<u8> {
    let mut list = good_list(dice);
    for _ in 0..dice.from(1, 2) {
        if list.is_empty() {
            break;
        }
        let at = RECORD_SIZE * dice.below((list.len() + RECORD_SIZE - 1) / RECORD_SIZE);
        match dice.below(14) {
            0 => list.clear(),
            1 => list.truncate(list.len() - dice.from(1, list.len().min(RECORD_SIZE + 1))),
            2 => list.extend((0..dice.from(1, RECORD_SIZE - 1)).map(|_| dice.byte())),
            3 => {
                let record = list[at..list.len().min(at + RECORD_SIZE)].to_vec();
                let most = MOST_RECORDS + dice.pick(&[1, 2, 1000]);
                while list.len() / RECORD_SIZE < most && record.len() == RECORD_SIZE {
                    list.extend(&record);
                }
            }
            4 => list[at] = dice.pick(&[0, 4, 5, 128, 255]),
            5 | 6 => {
                let any = dice.below(list.len());
                list[any] = dice.byte();
            }
            7 if at + 7 < list.len() => list[at + 7] = dice.from(1, 255) as u8,
            8 if at + 5 < list.len() => list[at + 5] = dice.from(1, 255) as u8,
            9 if at + 3 < list.len() => list[at + 3] = if dice.once_in(2) { 2 } else { dice.from(1, 255) as u8 },
            10 if at + 2 < list.len() => list.swap(at + 1, at + 2),
            _ => list = list.chunks(RECORD_SIZE).filter(|record| record[0] != 2).collect::<Vec<_>>().concat(),
        }
    }
    list
}

// Tables.

#[derive(Clone, Default)]
pub struct Lists {
    pub bound: u64,
    pub classes: Vec<u8>,
    pub parts: Vec<u8>,
    pub rows: Vec<u8>,
    pub splits: Vec<u8>,
}

fn random_set(dice: &mut Dice, states: &[u16]) -> Set {
    match dice.below(8) {
        0 => Set::new(),
        1 => (0..dice.from(0, 40)).map(|_| any_state(dice)).collect(),
        _ => (0..dice.from(1, 4)).map(|_| dice.pick(states)).collect(),
    }
}

fn states_of(automaton: &Automaton) -> Vec<u16> {
    automaton.named().into_iter().collect()
}

/// The bytes at which some edge begins to be taken, or no longer is: between two of them all bytes step alike.
fn corners(automaton: &Automaton) -> Vec<u8> {
    let mut corners = BTreeSet::from([0]);
    for edge in automaton.edges.values().flatten() {
        corners.extend((1..=255).filter(|&byte| edge.takes(byte) != edge.takes(byte - 1)));
    }
    corners.into_iter().collect()
}

fn split_record(set: &Set, slots: &[u16]) -> Vec<u8> {
    let mut record = bytes_of(set).to_vec();
    for i in 0..SLOTS {
        record.extend(slots.get(i).copied().unwrap_or(UNUSED).to_le_bytes());
    }
    record
}

/// A table that obeys the rules; `None` where the automaton has too many frontiers or classes for one.
pub fn good_table(dice: &mut Dice, automaton: &Automaton) -> Option<Lists> {
    let states = states_of(automaton);
    let corners = corners(automaton);

    // The frontiers: from the start set, and from some others that no flow reaches.
    let mut waiting = VecDeque::from([automaton.starts.clone()]);
    for _ in 0..dice.below(3) {
        waiting.push_back(random_set(dice, &states));
    }
    let mut frontiers = BTreeSet::new();
    while let Some(frontier) = waiting.pop_front() {
        if frontiers.contains(&frontier) {
            continue;
        }
        waiting.extend(corners.iter().map(|&byte| automaton.step(&frontier, byte)));
        frontiers.insert(frontier);
        if frontiers.len() > 40 {
            return None;
        }
    }

    // The parts of each: its states by colour, sometimes with a state of another colour too.
    let colours = dice.from(1, SLOTS);
    let colour: Vec<usize> = (0..STATES).map(|_| dice.below(colours)).collect();
    let mut parts: Vec<Set> = Vec::new();
    let mut covers: Vec<(Set, Vec<Set>)> = Vec::new();
    for frontier in &frontiers {
        let mut cover = Vec::new();
        for c in 0..colours {
            let mut part: Set = frontier.iter().copied().filter(|&state| colour[usize::from(state)] == c).collect();
            if part.is_empty() && !dice.once_in(20) {
                continue;
            }
            if dice.once_in(6) && !frontier.is_empty() {
                let members: Vec<u16> = frontier.iter().copied().collect();
                part.insert(dice.pick(&members));
            }
            if cover.contains(&part) {
                continue;
            }
            if !parts.contains(&part) {
                parts.push(part.clone());
            }
            cover.push(part);
        }
        covers.push((frontier.clone(), cover));
    }
    for _ in 0..dice.below(3) {
        // Parts that no split uses, and parts that are there twice.
        let more = if dice.once_in(2) && !parts.is_empty() { dice.pick(&parts) } else { random_set(dice, &states) };
        parts.push(more);
    }
    if parts.is_empty() {
        parts.push(Set::new());
    }
    dice.shuffle(&mut parts);

    // The classes: bytes on which every part steps alike may share one.
    let column = |byte: u8| -> Vec<Set> { parts.iter().map(|part| automaton.step(part, byte)).collect() };
    let by_corner: Vec<Vec<Set>> = corners.iter().map(|&byte| column(byte)).collect();
    let mut numbers: Vec<u8> = (0..=MOST_CLASS).collect();
    if dice.once_in(3) {
        dice.shuffle(&mut numbers);
    } else {
        let few = dice.from(1, numbers.len());
        dice.shuffle(&mut numbers[..few]);
    }
    let mut given: BTreeMap<&Vec<Set>, u8> = BTreeMap::new();
    let mut classes = vec![0; BYTE_VALUES];
    let mut selected: BTreeMap<u8, &Vec<Set>> = BTreeMap::new();
    let mut taken = 0;
    for byte in 0..=255 {
        let corner = corners.partition_point(|&c| c <= byte) - 1;
        let steps = &by_corner[corner];
        let fresh = !given.contains_key(steps) || (taken + 4 < numbers.len() && dice.once_in(200));
        if fresh {
            if taken == numbers.len() {
                return None;
            }
            given.insert(steps, numbers[taken]);
            taken += 1;
        }
        classes[usize::from(byte)] = given[steps];
        selected.insert(given[steps], steps);
    }
    let width = classes.iter().max().unwrap() + 1;

    // Rows: those that no byte selects hold anything.
    let mut rows = Vec::new();
    for part in 0..parts.len() {
        for class in 0..width {
            match selected.get(&class) {
                Some(steps) => rows.extend(bytes_of(&steps[part])),
                None => rows.extend(bytes_of(&random_set(dice, &states))),
            }
        }
    }

    let mut splits: Vec<Vec<u8>> = Vec::new();
    let mut most = 1;
    for (frontier, cover) in &covers {
        let mut slots: Vec<u16> = cover
            .iter()
            .map(|part| {
                let places: Vec<u16> = (0..parts.len()).filter(|&i| parts[i] == *part).map(|i| i as u16).collect();
                dice.pick(&places)
            })
            .collect();
        slots.sort_unstable();
        most = most.max(slots.len());
        splits.push(split_record(frontier, &slots));
    }
    splits.sort();
    Some(Lists {
        bound: dice.from(most, MOST_BOUND as usize) as u64,
        classes,
        parts: parts.iter().flat_map(bytes_of).collect(),
        rows,
        splits: splits.concat(),
    })
}

/// A table whose lists have the right lengths, and little else about it is right: its rows lead from split to split, so that a feed
/// gets some way, and their slots hold anything. In one of eight its splits stand in any order and more than once; in the others they rise.
pub fn wild_table(dice: &mut Dice, automaton: &Automaton) -> Lists {
    let states = states_of(automaton);
    let mut pool: Vec<Set> = (0..dice.from(1, 4)).map(|_| random_set(dice, &states)).collect();
    pool.push(automaton.starts.clone());
    if dice.once_in(2) {
        pool.push(Set::new());
    }
    let (parts, width) = (dice.from(1, 5), dice.from(1, 6));
    let mut classes: Vec<u8> = (0..BYTE_VALUES).map(|_| dice.below(width) as u8).collect();
    classes[dice.below(BYTE_VALUES)] = width as u8 - 1;
    let mut unions: Vec<Set> = pool.clone();
    for a in &pool {
        unions.extend(pool.iter().map(|b| a | b));
    }
    let mut splits: Vec<Vec<u8>> = Vec::new();
    for set in &unions {
        if dice.once_in(12) {
            continue;
        }
        let mut slots = [UNUSED; SLOTS];
        for slot in slots.iter_mut().take(dice.pick(&[0, 1, 1, 2, 2, 2, 3, SLOTS])) {
            *slot = dice.below(parts) as u16;
        }
        if dice.once_in(15) {
            slots[dice.below(SLOTS)] = dice.pick(&[parts as u16, MOST_PARTS as u16, UNUSED - 1, 256, UNUSED]);
        }
        splits.push(split_record(set, &slots));
    }
    if splits.is_empty() {
        splits.push(split_record(&automaton.starts, &[0]));
    }
    dice.shuffle(&mut splits);
    if !dice.once_in(8) {
        splits.sort();
        splits.dedup_by(|a, b| a[..SET_SIZE] == b[..SET_SIZE]);
    }
    Lists {
        bound: dice.from(1, MOST_BOUND as usize) as u64,
        classes,
        parts: (0..parts).flat_map(|_| bytes_of(&random_set(dice, &states))).collect(),
        rows: (0..parts * width).flat_map(|_| bytes_of(&dice.pick(&pool))).collect(),
        splits: splits.concat(),
    }
}

/// One fault, at a random place (some do no harm).
pub fn damage(dice: &mut Dice, lists: &mut Lists) {
    let splits = lists.splits.len() / SPLIT_SIZE;
    let parts = lists.parts.len() / SET_SIZE;
    match dice.below(22) {
        0 => lists.bound = dice.pick(&[0, MOST_BOUND + 1, MOST_BOUND + 2, 255, 256, 257, 4_294_967_297, u64::MAX]),
        1 => lists.bound = dice.from(1, MOST_BOUND as usize) as u64,
        2 => lists.bound = lists.bound.saturating_sub(1),
        3 => {
            let list = [&mut lists.classes, &mut lists.parts, &mut lists.rows, &mut lists.splits];
            let list = list.into_iter().nth(dice.below(4)).unwrap();
            match dice.below(5) {
                0 => list.clear(),
                1 => drop(list.pop()),
                2 => list.push(dice.byte()),
                3 => list.extend(list.clone()),
                _ => list.truncate(list.len().saturating_sub(dice.pick(&[SET_SIZE, SPLIT_SIZE]))),
            }
        }
        4 => {
            if !lists.classes.is_empty() {
                let at = dice.below(lists.classes.len());
                lists.classes[at] = dice.pick(&[0, 1, MOST_CLASS, MOST_CLASS + 1, MOST_CLASS + 2, 128, 255]);
            }
        }
        5 | 6 => {
            // A byte moves to the class of another.
            if lists.classes.len() == BYTE_VALUES {
                let from = dice.below(BYTE_VALUES);
                let to = if dice.once_in(2) { usize::from(dice.pick(LETTERS)) } else { dice.below(BYTE_VALUES) };
                lists.classes[to] = lists.classes[from];
            }
        }
        7..=10 => {
            let list = if dice.once_in(3) { &mut lists.parts } else { &mut lists.rows };
            if !list.is_empty() {
                let at = dice.below(list.len());
                list[at] ^= 1 << dice.below(8);
            }
        }
        11 => {
            if !lists.splits.is_empty() {
                let at = dice.below(lists.splits.len());
                lists.splits[at] ^= 1 << dice.below(8);
            }
        }
        12 | 13 if splits > 0 => {
            let at = SPLIT_SIZE * dice.below(splits) + SET_SIZE + 2 * dice.below(SLOTS);
            let slot = if dice.once_in(2) {
                dice.below(parts + 2) as u16
            } else {
                dice.pick(&[UNUSED, UNUSED - 1, MOST_PARTS as u16, 0])
            };
            lists.splits[at..at + 2].copy_from_slice(&slot.to_le_bytes());
        }
        14 if splits > 0 => {
            // Two slots change places.
            let at = SPLIT_SIZE * dice.below(splits) + SET_SIZE;
            let (a, b) = (dice.below(SLOTS), dice.below(SLOTS));
            lists.splits.swap(at + 2 * a, at + 2 * b);
            lists.splits.swap(at + 2 * a + 1, at + 2 * b + 1);
        }
        15 if splits > 1 => {
            // Two splits change places.
            let (a, b) = (dice.below(splits), dice.below(splits));
            for i in 0..SPLIT_SIZE {
                lists.splits.swap(SPLIT_SIZE * a + i, SPLIT_SIZE * b + i);
            }
        }
        16 if splits > 0 => {
            let at = SPLIT_SIZE * dice.below(splits);
            let again = lists.splits[at..at + SPLIT_SIZE].to_vec();
            lists.splits.splice(at..at, again);
        }
        17..=19 if splits > 1 => {
            let at = SPLIT_SIZE * dice.below(splits);
            lists.splits.drain(at..at + SPLIT_SIZE);
        }
        20 if splits > 0 && parts > 0 => {
            // One more split, at its place in the order: a part by itself.
            let part = dice.below(parts);
            let mut record = lists.parts[SET_SIZE * part..SET_SIZE * (part + 1)].to_vec();
            record.extend((part as u16).to_le_bytes());
            record.extend([UNUSED.to_le_bytes(); SLOTS - 1].concat());
            let mut records: Vec<Vec<u8>> = lists.splits.chunks(SPLIT_SIZE).map(|split| split.to_vec()).collect();
            if records.iter().all(|split| split[..split.len().min(SET_SIZE)] != record[..SET_SIZE]) {
                records.push(record);
                records.sort();
                lists.splits = records.concat();
            }
        }
        _ => {
            if dice.once_in(2) {
                lists.parts.extend([0; SET_SIZE]);
            } else {
                // One part more, with rows for it, all empty.
                let width = lists.rows.len() / lists.parts.len().max(1);
                lists.parts.extend([0; SET_SIZE]);
                lists.rows.extend(vec![0; SET_SIZE * width]);
            }
        }
    }
}

// Records and pieces.

/// A record with a frontier of the list's own states and any offset, which no feed refuses with 4; now and then with a state more, mostly one
/// that the list does not name.
pub fn saved_record(dice: &mut Dice, automaton: Option<&Automaton>) -> Vec<u8> {
    let states = automaton.map_or(vec![0, 1, STATES as u16 - 1], states_of);
    let mut frontier = random_set(dice, &states);
    if dice.once_in(4) {
        frontier.insert(dice.below(STATES) as u16);
    }
    let mut record = bytes_of(&frontier).to_vec();
    let offset = match dice.below(4) {
        0 => dice.below(100) as u64,
        1 => MOST_OFFSET - dice.below(4) as u64,
        2 => MOST_OFFSET - dice.below(70) as u64,
        _ => dice.next() >> 32,
    };
    let most = STATES as u64 * offset;
    let rows = match dice.below(4) {
        0 => most,
        1 => 0,
        _ => dice.next() % (most + 1),
    };
    record.extend((offset as u32).to_le_bytes());
    record.extend([0; 4]);
    record.extend(rows.to_le_bytes());
    record
}

/// One fault in a record (some do no harm).
pub fn damage_record(dice: &mut Dice, record: &mut Vec<u8>) {
    match dice.below(8) {
        0 => record.truncate(dice.below(FLOW_SIZE)),
        1 => record.extend((0..dice.from(1, 16)).map(|_| dice.byte())),
        2 => record.clear(),
        3 if record.len() >= FLOW_SIZE => {
            let at = dice.from(RESERVED_AT, ROWS_AT - 1);
            record[at] = dice.from(1, 255) as u8;
        }
        4 | 5 if record.len() >= FLOW_SIZE => {
            // Rows read, just over what the offset allows, or just not.
            let offset = u32::from_le_bytes(record[OFFSET_AT..RESERVED_AT].try_into().unwrap());
            let rows = STATES as u64 * u64::from(offset) + dice.pick(&[0, 1, 2, 1 << 40]);
            record[ROWS_AT..FLOW_SIZE].copy_from_slice(&rows.to_le_bytes());
        }
        6 if record.len() >= FLOW_SIZE => record[dice.pick(&[ROWS_AT, ROWS_AT + 4, FLOW_SIZE - 1])] = dice.byte(),
        _ => {
            if !record.is_empty() {
                let at = dice.below(record.len());
                record[at] = dice.byte();
            }
        }
    }
}

pub fn piece(dice: &mut Dice) -> Vec<u8> {
    let length = match dice.below(40) {
        0..=4 => 0,
        5..=20 => dice.from(1, 8),
        21..=38 => dice.from(1, 60),
        _ => dice.from(1, 1000),
    };
    let mostly = dice.from(0, 6);
    (0..length).map(|_| if dice.below(6) < mostly { dice.pick(LETTERS) } else { dice.byte() }).collect()
}

/// Words in a pairs buffer, odd ones as often as even ones.
pub fn words(dice: &mut Dice) -> usize {
    match dice.below(10) {
        0 => 0,
        1 => 1,
        2..=5 => dice.from(2, 12),
        6..=8 => dice.from(2, 90),
        _ => dice.from(ENOUGH_WORDS - 12, 1200),
    }
}
