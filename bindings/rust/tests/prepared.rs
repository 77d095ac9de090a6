//! The filler and the prepared feed: beside the split feed on random tables, records, starts, pieces and rooms, and on indexes that no filler
//! wrote. `WATCH_TABLES` is the number of tables (600 unless it is set), `WATCH_SEED` another seed.

mod common;

use common::{builders, dice, number, ordinary};

use builders::Lists;
use dice::Dice;
use ordinary::Automaton;
use watch::{Flow, Index, List, Refusal, SplitError, Table, TableLists};
use watch::{ENTRY_SIZE, FLOW_SIZE, OFFSET_AT, RESERVED_AT, SET_SIZE, SPLIT_SIZE, TELLING};

/// A list, and a table that the check accepts for it.
fn accepted(dice: &mut Dice) -> (Vec<u8>, Lists) {
    loop {
        let bytes = builders::good_list(dice);
        let automaton = Automaton::read(&bytes).expect("a good list");
        if let Some(lists) = builders::good_table(dice, &automaton) {
            return (bytes, lists);
        }
    }
}

fn lent(lists: &Lists) -> TableLists<'_> {
    TableLists { classes: &lists.classes, parts: &lists.parts, rows: &lists.rows, splits: &lists.splits }
}

fn record(dice: &mut Dice, automaton: &Automaton) -> Flow {
    loop {
        let bytes = builders::saved_record(dice, Some(automaton));
        if let Ok(bytes) = <[u8; FLOW_SIZE]>::try_from(&bytes[..]) {
            return Flow::from_bytes(bytes);
        }
    }
}

#[test]
fn a_filled_index_is_the_split_feed() {
    let mut dice = Dice(number("WATCH_SEED", 20261115));
    let (mut calls, mut halts, mut pairs, mut bytes) = (0, 0, 0, 0);
    for _ in 0..number("WATCH_TABLES", 600) {
        let (list, lists) = accepted(&mut dice);
        let automaton = Automaton::read(&list).expect("a good list");
        let list = List::check(&list).expect("a good list");
        let table = Table::check(&list, lists.bound, lent(&lists)).expect("a good table");
        let index = Index::fill(&table, vec![dice.byte(); table.index_size()]).expect("an accepted table");
        let mut flow = Flow::open_all(&list, |_| ());
        let mut split = dice.below(9) as u32;
        for _ in 0..12 {
            if dice.once_in(5) {
                split = dice.pick(&[0, 1, u32::MAX]);
            }
            if dice.once_in(4) {
                flow = record(&mut dice, &automaton);
            }
            let piece = builders::piece(&mut dice);
            let start = u64::from(flow.offset()) + u64::from(dice.once_in(9));
            let mut ours = vec![9; builders::words(&mut dice)];
            let mut theirs = ours.clone();
            let mut other = flow.clone();
            let hint = split;
            let through = other.split_feed(&table, start, &piece, &mut theirs);
            let prepared = flow.prepared_feed(&index, &mut split, start, &piece, &mut ours);
            assert_eq!(prepared, through);
            assert!(flow == other && ours == theirs, "records and words");
            let names: Vec<&[u8]> = lists.splits.chunks(SPLIT_SIZE).map(|split| &split[..SET_SIZE]).collect();
            let stands = names.iter().position(|name| *name == &flow.as_bytes()[..SET_SIZE]);
            match prepared {
                Err(SplitError::Refused(_)) => assert_eq!(split, hint),
                _ => assert_eq!(split as usize, stands.unwrap_or(names.len())),
            }
            calls += 1;
            halts += u32::from(matches!(through, Err(SplitError::Halted { .. })));
            if let Ok(fed) = prepared {
                pairs += fed.pairs;
                bytes += fed.bytes;
            }
        }
    }
    assert!(halts > 0 && pairs > 0, "halts and pairs are met");
    println!("prepared: {calls} calls as the split feed, {bytes} bytes, {pairs} pairs, {halts} halts");
}

#[test]
fn a_refusal_leaves_the_index() {
    let mut dice = Dice(7);
    for _ in 0..60 {
        let (list, mut lists) = accepted(&mut dice);
        let list = List::check(&list).expect("a good list");
        let size = Table::from_saved(&list, 1, lent(&lists)).index_size();
        for wrong in [size - 1, size + 1, 0, SET_SIZE - 1, SET_SIZE] {
            if wrong == size {
                continue;
            }
            let table = Table::from_saved(&list, lists.bound, lent(&lists));
            let mut bytes = vec![0xAA; wrong];
            assert_eq!(Index::fill(&table, &mut bytes[..]).unwrap_err(), Refusal::TableLists);
            assert!(bytes.iter().all(|&byte| byte == 0xAA));
        }
        builders::damage(&mut dice, &mut lists);
        let table = Table::from_saved(&list, lists.bound, lent(&lists));
        let verdict = Table::check(&list, lists.bound, lent(&lists));
        let mut bytes = vec![0xAA; table.index_size()];
        match verdict {
            Ok(_) => assert!(Index::fill(&table, &mut bytes[..]).is_ok()),
            Err(refusal) => {
                assert_eq!(Index::fill(&table, &mut bytes[..]).unwrap_err(), refusal);
                assert!(bytes.iter().all(|&byte| byte == 0xAA));
            }
        }
    }
}

/// What a call answers and leaves: the refusal, the bytes, the words of its pairs, the record and the split.
type Left = (u32, usize, Vec<u32>, Vec<u8>, usize);

/// The feed of an index as it stands, by its bytes alone: 4 to 6 and 8 have passed.
fn as_it_stands(splits: &[u8], index: &[u8], hint: usize, flow: &Flow, piece: &[u8], room: usize) -> Left {
    let names: Vec<&[u8]> = splits.chunks(SPLIT_SIZE).map(|split| &split[..SET_SIZE]).collect();
    let frontier = &flow.as_bytes()[..SET_SIZE];
    let whole = |place: usize| index.get(place..place + ENTRY_SIZE);
    let (mut low, mut high, mut at) = (0, names.len(), names.len());
    if names.get(hint) == Some(&frontier) {
        (at, high) = (hint, 0);
    }
    while low < high {
        let middle = (low + high) / 2;
        match names[middle].cmp(frontier) {
            std::cmp::Ordering::Equal => {
                at = middle;
                break;
            }
            std::cmp::Ordering::Less => low = middle + 1,
            std::cmp::Ordering::Greater => high = middle,
        }
    }
    let (mut told, mut rows, mut bytes, mut refusal) = (Vec::new(), flow.rows_read(), 0, 0);
    let mut place = SET_SIZE + ENTRY_SIZE * at;
    for &byte in piece {
        let entry = match whole(place) {
            Some(entry) => entry,
            None => {
                refusal = 14;
                break;
            }
        };
        let word = u32::from_le_bytes(entry[4 * usize::from(byte)..][..4].try_into().unwrap());
        let next = (word % TELLING) as usize;
        let offset = flow.offset() + bytes as u32 + 1;
        let due: Vec<u32> = match whole(next) {
            Some(there) if word >= TELLING => {
                (0..256u32).filter(|&g| there[1024 + g as usize / 8] >> (g % 8) & 1 == 1).collect()
            }
            _ => Vec::new(),
        };
        if told.len() / 2 + due.len() > room {
            break;
        }
        told.extend(due.iter().flat_map(|&g| [g, offset]));
        rows += u64::from(entry[1056]);
        place = next;
        bytes += 1;
    }
    let split = whole(place).map_or(names.len(), |_| place.saturating_sub(SET_SIZE) / ENTRY_SIZE);
    let mut after = frontier.to_vec();
    if bytes > 0 {
        after = names.get(split).map_or(vec![0; SET_SIZE], |name| name.to_vec());
    }
    after.extend((flow.offset() + bytes as u32).to_le_bytes());
    after.extend([0; 4]);
    after.extend(rows.to_le_bytes());
    (refusal, bytes, told, after, split)
}

/// A word of no sense, of an index of so many splits: mostly an entry's place, else any, or past the last entry.
fn any_word(dice: &mut Dice, count: usize) -> u32 {
    let size = SET_SIZE + ENTRY_SIZE * count;
    let to = match dice.below(20) {
        0 => dice.below(size),
        1 => dice.pick(&[size - ENTRY_SIZE + 1, size, TELLING as usize - 1]),
        _ => SET_SIZE + ENTRY_SIZE * dice.below(count),
    };
    to as u32 + if dice.once_in(4) { TELLING } else { 0 }
}

#[test]
fn any_index_is_run_as_it_stands() {
    let mut dice = Dice(11);
    let (mut halts, mut late, mut long) = (0, 0, 0);
    for turn in 0..400 {
        let (list, lists) = accepted(&mut dice);
        let list = List::check(&list).expect("a good list");
        let table = Table::from_saved(&list, lists.bound, lent(&lists));
        let count = lists.splits.len() / SPLIT_SIZE;
        let mut bytes: Vec<u8> = (0..table.index_size()).map(|_| dice.byte()).collect();
        bytes[..SET_SIZE].fill(0xFF);
        for (split, entry) in bytes[SET_SIZE..].chunks_mut(ENTRY_SIZE).enumerate() {
            // In every other index most bytes stay where they are.
            let own = (SET_SIZE + ENTRY_SIZE * split) as u32;
            for word in entry[..1024].chunks_mut(4) {
                let leads = if turn % 2 == 0 && !dice.once_in(60) { own } else { any_word(&mut dice, count) };
                word.copy_from_slice(&leads.to_le_bytes());
            }
            for byte in &mut entry[1024..1056] {
                *byte = if dice.once_in(8) { 1 << dice.below(8) } else { 0 };
            }
            entry[1057] = 1;
        }
        let mut splits = lists.splits.clone();
        if dice.once_in(3) {
            splits.rotate_left(SPLIT_SIZE * dice.below(count));
        }
        let named = dice.below(count);
        let name = SPLIT_SIZE * named;
        let mut first = [0; FLOW_SIZE];
        first[..SET_SIZE].copy_from_slice(&splits[name..name + SET_SIZE]);
        first[OFFSET_AT..RESERVED_AT].copy_from_slice(&9u32.to_le_bytes());
        let mut flow = Flow::from_bytes(first);
        let mut piece = builders::piece(&mut dice);
        if turn % 2 == 0 {
            let calm = dice.byte();
            let more = 300 + dice.below(500);
            piece.extend((0..more).map(|_| if dice.once_in(90) { dice.byte() } else { calm }));
        }
        let mut words = vec![7; builders::words(&mut dice)];
        let other = dice.below(count);
        let mut split = dice.pick(&[named, named, count, other]) as u32;
        let expected = as_it_stands(&splits, &bytes, split as usize, &flow, &piece, words.len() / 2);
        let index = Index::from_saved(&splits, &bytes);
        let fed = flow.prepared_feed(&index, &mut split, 9, &piece, &mut words);
        let (refusal, consumed, pairs) = match &fed {
            Ok(fed) => (0, fed.bytes, fed.pairs),
            Err(error) => (error.refusal().number(), error.bytes(), error.pairs()),
        };
        assert_eq!(
            (refusal, consumed, &words[..2 * pairs], &flow.as_bytes()[..], split as usize),
            (expected.0, expected.1, &expected.2[..], &expected.3[..], expected.4)
        );
        halts += u32::from(refusal == 14);
        late += u32::from(refusal == 14 && consumed > 0);
        long += u32::from(consumed > 400);
    }
    assert!(halts > late && late > 0 && long > 0, "halts at the first byte and later, and long runs");
}

#[test]
fn refusals_of_the_prepared_feed() {
    let mut dice = Dice(5);
    let (list, lists) = accepted(&mut dice);
    let list = List::check(&list).expect("a good list");
    let table = Table::check(&list, lists.bound, lent(&lists)).expect("a good table");
    let index = Index::fill(&table, vec![0; table.index_size()]).expect("an accepted table");
    let opened = Flow::open_all(&list, |_| ());
    let refused = |index: &Index<Vec<u8>>, flow: &Flow, start: u64| {
        let (mut after, mut words) = (flow.clone(), [3; 8]);
        let mut split = 12345;
        let refusal = after.prepared_feed(index, &mut split, start, b"x", &mut words).unwrap_err().refusal();
        assert!(after == *flow && words == [3; 8] && split == 12345);
        refusal.number()
    };
    // A state that no record names: 4, and 8 where the index is too short to say so.
    let named: Vec<u16> = (0..1024).filter(|&s| index.as_bytes()[usize::from(s / 8)] >> (s % 8) & 1 == 1).collect();
    let foreign = (0..1024).find(|s| !named.contains(s)).expect("some state is not named");
    let mut bytes = *opened.as_bytes();
    bytes[usize::from(foreign / 8)] |= 1 << (foreign % 8);
    let stranger = Flow::from_bytes(bytes);
    assert_eq!(refused(&index, &stranger, 0), 4);
    for length in [0, 1, SET_SIZE - 1] {
        let short = Index::from_saved(&lists.splits, index.as_bytes()[..length].to_vec());
        assert_eq!(refused(&short, &stranger, 0), 8);
        assert_eq!(refused(&short, &opened, 1), 5);
    }
    let first = Index::from_saved(&lists.splits, index.as_bytes()[..SET_SIZE].to_vec());
    assert_eq!((refused(&first, &stranger, 0), refused(&first, &opened, 0)), (4, 8));
    // One byte or one entry more or less, a broken split, no split.
    let whole = index.as_bytes().to_vec();
    let longer = [&whole[..], &[0]].concat();
    for (splits, bytes) in [
        (&lists.splits[..], whole[..whole.len() - 1].to_vec()),
        (&lists.splits[..], whole[..whole.len() - ENTRY_SIZE].to_vec()),
        (&lists.splits[..], longer),
        (&lists.splits[1..], whole.clone()),
        (&[][..], whole[..SET_SIZE].to_vec()),
    ] {
        assert_eq!(refused(&Index::from_saved(splits, bytes), &opened, 0), 8);
    }
    // Where the hint is the split of the frontier its own note says whether that is named, else the set in front.
    let at = lists.splits.chunks(SPLIT_SIZE).position(|split| split[..SET_SIZE] == opened.as_bytes()[..SET_SIZE]);
    let at = at.expect("the start set is a split");
    let mut noted = whole.clone();
    noted[SET_SIZE + ENTRY_SIZE * at + 1057] = 0;
    let mut bare = whole;
    bare[..SET_SIZE].fill(0);
    let fed = |bytes: &[u8], hint: usize| {
        let index = Index::from_saved(&lists.splits, bytes);
        opened.clone().prepared_feed(&index, &mut (hint as u32), 0, b"", &mut []).is_ok()
    };
    assert_eq!((fed(&noted, at), fed(&noted, at + 1), fed(&bare, at), fed(&bare, at + 1)), (false, true, true, false));
}
