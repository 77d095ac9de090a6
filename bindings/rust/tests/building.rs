//! Replays the cases of the builder that the second program made, `tools/second/table/builds`, through the archive and compares each line with
//! `tools/second/table/built`. Where a table is built, the check accepts it at bound 1, and flows fed through it and by its index tell the pairs of the plain
//! feed. So of splits and an index straight from a list, `tools/second/index/prepares` and `prepared`. `tools/second/README.md` says what the lines have.
//! `WATCH_VECTORS` may name a smaller number of lines.

mod common;

use common::dice::Dice;
use common::stream::{all_lines, digest, read, replay};
use std::collections::BTreeMap;
use watch::{
    raw, Flow, Index, LentLists, List, Pair, Refusal, Table, LENT_CLASSES, LENT_PARTS, LENT_ROWS, LENT_SPLITS,
    PREPARE_INDEX, PREPARE_SPLITS, SET_SIZE, SPLIT_SIZE,
};

/// What stands in each lent list before a call.
const FILL: u8 = 255;

/// With no more sets than these a table is fed by its index as well.
const FEW_SETS: usize = 128;

/// Builds in lists of these lengths, each a block of its own; the answer, and the lists.
fn build(list: &[u8], lent: [usize; 4]) -> (raw::WatchBuilt, [Box<[u8]>; 4]) {
    let mut lists = lent.map(|length| vec![FILL; length].into_boxed_slice());
    let [c, p, r, s] = &mut lists;
    // SAFETY: every pointer and length is that of a block of its own.
    let built = unsafe {
        raw::watch_build(
            list.as_ptr(),
            list.len(),
            c.as_mut_ptr(),
            c.len(),
            p.as_mut_ptr(),
            p.len(),
            r.as_mut_ptr(),
            r.len(),
            s.as_mut_ptr(),
            s.len(),
        )
    };
    (built, lists)
}

/// Prepares in lists of these lengths, each a block of its own; the answer, and the lists.
fn prepare(list: &[u8], lent: [usize; 2]) -> (raw::WatchMade, [Box<[u8]>; 2]) {
    let mut lists = lent.map(|length| vec![FILL; length].into_boxed_slice());
    let [s, x] = &mut lists;
    // SAFETY: every pointer and length is that of a block of its own.
    let made =
        unsafe { raw::watch_prepare(list.as_ptr(), list.len(), s.as_mut_ptr(), s.len(), x.as_mut_ptr(), x.len()) };
    (made, lists)
}

/// The line of an answer: of each list the digest of the bytes used, and of the others how many are 0 and how many are still as they were.
fn line(letter: char, refusal: u32, lengths: &[u64], lists: &[Box<[u8]>]) -> String {
    let mut text = format!("{letter} {refusal}");
    lengths.iter().for_each(|length| text += &format!(" {length}"));
    for (list, &length) in lists.iter().zip(lengths) {
        let (front, rest) = list.split_at(length as usize);
        let count = |byte: u8| rest.iter().filter(|&&b| b == byte).count();
        text += &format!(" {} {} {}", digest(front), count(0), count(FILL));
    }
    text
}

/// The pairs of a piece that is fed to a flow from its opening: plain, or through the table, where each byte reads one row. With few sets it is fed by
/// the table's index as well, which costs another check of the table.
fn told(list: &List, table: Option<&Table>, piece: &[u8]) -> Vec<Pair> {
    let mut pairs = Vec::new();
    let mut flow = Flow::open_all(list, |pair| pairs.push(pair));
    match table {
        None => drop(flow.feed_all(list, 0, piece, |pair| pairs.push(pair)).unwrap()),
        Some(table) => {
            let (mut prepared, mut again) = (flow.clone(), pairs.clone());
            flow.split_feed_all(table, 0, piece, |pair| pairs.push(pair)).unwrap();
            if table.lists().parts.len() <= FEW_SETS * SET_SIZE {
                let index = Index::fill(table, vec![FILL; table.index_size()]).unwrap();
                prepared.prepared_feed_all(&index, &mut 0, 0, piece, |pair| again.push(pair)).unwrap();
                assert_eq!((&again, &prepared), (&pairs, &flow));
            }
            assert_eq!(flow.rows_read(), piece.len() as u64);
        }
    }
    pairs
}

/// Bytes that a list speaks of, mostly.
fn spoken_of(dice: &mut Dice, list: &[u8]) -> Vec<u8> {
    let letters: Vec<u8> = list.chunks(8).flat_map(|record| [record[1], record[2]]).collect();
    (0..40).map(|_| letters[dice.below(letters.len())]).collect()
}

/// The pairs of a piece that is fed by an index, cut in two, with the split that the call before left or with any number; each byte reads one row, and
/// the split left has the frontier.
fn told_by_index(dice: &mut Dice, list: &List, index: &Index<&[u8]>, piece: &[u8]) -> Vec<Pair> {
    let mut pairs = Vec::new();
    let mut flow = Flow::open_all(list, |pair| pairs.push(pair));
    let mut split = dice.below(9) as u32;
    let cut = dice.below(piece.len() + 1);
    for (start, part) in [(0, &piece[..cut]), (cut, &piece[cut..])] {
        if dice.once_in(3) {
            split = u32::MAX;
        }
        flow.prepared_feed_all(index, &mut split, start as u64, part, |pair| pairs.push(pair)).unwrap();
        assert_eq!(index.splits()[SPLIT_SIZE * split as usize..][..SET_SIZE], flow.as_bytes()[..SET_SIZE]);
    }
    assert_eq!(flow.rows_read(), piece.len() as u64);
    pairs
}

#[test]
fn what_is_prepared_is_answered_line_by_line() {
    let mut dice = Dice(17);
    let mut counts = BTreeMap::<u32, usize>::new();
    let (mut lines, mut pairs) = (0, 0);
    replay("tools/second/index/prepares", "tools/second/index/prepared", |reader| {
        let bytes = reader.block();
        let lent = [(); 2].map(|()| reader.length());
        let (made, lists) = prepare(&bytes, lent);
        lines += 1;
        let lengths = [made.splits, made.index];
        *counts.entry(made.refusal).or_default() += 1;
        if made.refusal == 0 {
            let list = List::check(&bytes).unwrap();
            let index = Index::from_saved(&lists[0][..made.splits as usize], &lists[1][..made.index as usize]);
            let piece = spoken_of(&mut dice, &bytes);
            let plain = told(&list, None, &piece);
            assert_eq!(told_by_index(&mut dice, &list, &index, &piece), plain, "line {lines}");
            pairs += plain.len();
        }
        Some(line('q', made.refusal, &lengths, &lists))
    });
    assert!(!all_lines() || pairs > 500, "{pairs} pairs");
    println!("preparing: {lines} lines, all equal; {pairs} pairs as the plain feed tells; {counts:?}");
}

/// The index that is filled for the built table is the one that is prepared, byte for byte: one row a byte.
#[test]
fn what_is_prepared_is_the_index_of_the_built_table() {
    for bytes in [BARN.to_vec(), fan(9), fan(40)] {
        let list = List::check(&bytes).unwrap();
        let built = Table::build(&list).unwrap();
        let index = Index::fill(&built.table(), vec![FILL; built.table().index_size()]).unwrap();
        let prepared = Index::prepare(&list).unwrap();
        assert!(index.as_bytes() == prepared.index().as_bytes());
        let sets = |splits: &[u8]| splits.chunks(SPLIT_SIZE).map(|split| split[..SET_SIZE].to_vec()).collect::<Vec<_>>();
        assert_eq!(sets(index.splits()), sets(prepared.index().splits()));
        assert!(prepared.index().splits().chunks(SPLIT_SIZE).all(|split| split[SET_SIZE..] == [255; 8]));
    }
}

#[test]
fn lent_lists_of_any_length_are_prepared_in() {
    let list = List::check(BARN).unwrap();
    let own = Index::prepare(&list).unwrap();
    assert_eq!(format!("{own:?}"), "Prepared(Index(3 splits))");
    let (mut splits, mut index) = (vec![FILL; PREPARE_SPLITS + 3], vec![FILL; PREPARE_INDEX + 5]);
    assert_eq!(Index::prepare_in(&list, &mut splits, &mut index), Ok(own.index()));
    assert_eq!((&splits[PREPARE_SPLITS..], &index[PREPARE_INDEX..]), (&[0; 3][..], &[0; 5][..]));
    for (less, fewer) in [(1, 0), (0, 1)] {
        let (mut splits, mut index) = (vec![FILL; PREPARE_SPLITS - less], vec![FILL; PREPARE_INDEX - fewer]);
        assert_eq!(Index::prepare_in(&list, &mut splits, &mut index), Err(Refusal::LentLists));
        assert!(splits.iter().chain(&index).all(|&byte| byte == FILL));
    }
}

/// State 0 leads to another state on each of so many bytes, and one class more than them.
fn fan(letters: u8) -> Vec<u8> {
    (0..letters).flat_map(|c| [1, c, c, 0, 0, 0, c + 1, 0]).chain([2, 0, 0, 0, 0, 0, 0, 0]).collect()
}

#[test]
fn the_builders_cases_are_answered_line_by_line() {
    let mut dice = Dice(16);
    let mut counts = BTreeMap::<u32, usize>::new();
    let (mut lines, mut pairs) = (0, 0);
    replay("tools/second/table/builds", "tools/second/table/built", |reader| {
        let bytes = reader.block();
        let lent = [(); 4].map(|()| reader.length());
        let (built, lists) = build(&bytes, lent);
        lines += 1;
        let lengths = [built.classes, built.parts, built.rows, built.splits];
        *counts.entry(built.refusal).or_default() += 1;
        if built.refusal == 0 {
            let list = List::check(&bytes).unwrap();
            let table = watch::TableLists {
                classes: &lists[0][..built.classes as usize],
                parts: &lists[1][..built.parts as usize],
                rows: &lists[2][..built.rows as usize],
                splits: &lists[3][..built.splits as usize],
            };
            let table = Table::check(&list, 1, table).unwrap_or_else(|refusal| panic!("line {lines}: {refusal}"));
            let piece = spoken_of(&mut dice, &bytes);
            let plain = told(&list, None, &piece);
            assert_eq!(told(&list, Some(&table), &piece), plain, "line {lines}");
            pairs += plain.len();
        }
        Some(line('b', built.refusal, &lengths, &lists))
    });
    assert!(!all_lines() || pairs > 500, "{pairs} pairs");
    println!("building: {lines} lines, all equal; {pairs} pairs as the plain feed tells; {counts:?}");
}

/// Signature 7 after any "ab".
const BARN: &[u8] =
    b"\x01\x00\xFF\0\0\0\0\0\x01aa\0\0\0\x01\0\x01bb\0\x01\0\x02\0\x02\0\0\0\0\0\0\0\x03\0\0\0\x02\0\x07\0";

#[test]
fn a_table_is_built_in_lent_lists_and_in_its_own() {
    let list = List::check(BARN).unwrap();
    let mut lists = [LENT_CLASSES, LENT_PARTS, LENT_ROWS + 5, LENT_SPLITS].map(|length| vec![FILL; length]);
    let [classes, parts, rows, splits] = &mut lists;
    let lent = LentLists { classes, parts, rows, splits };
    let table = Table::build_in(&list, lent).unwrap();
    let own = Table::build(&list).unwrap();
    assert_eq!(table, own.table());
    assert_eq!(told(&list, Some(&own.table()), b"abab"), told(&list, None, b"abab"));
    assert_eq!(format!("{own:?}"), "Built(TableLists(3 parts, 9 rows, 3 splits))");
    assert_eq!(&lists[2][LENT_ROWS..], [0; 5]);
}

/// The whole way: list, table, index, prepared feed, with the pairs of the program.
#[test]
fn the_two_breakfasts_are_told_by_what_is_built() {
    let rules = read("examples/two-breakfasts/rules.bin");
    let list = List::check(&rules).unwrap();
    let built = Table::build(&list).unwrap();
    for (name, pairs) in [("twice", &["9 42"][..]), ("loud", &["9 42"]), ("once", &[])] {
        let piece = read(&format!("examples/two-breakfasts/{name}"));
        let lines: Vec<String> = told(&list, Some(&built.table()), &piece).iter().map(Pair::to_string).collect();
        assert_eq!(lines, pairs, "{name}");
    }
}

#[test]
fn a_short_list_is_refused_and_stays() {
    let list = List::check(BARN).unwrap();
    for short in 0..4 {
        let mut lists = [LENT_CLASSES, LENT_PARTS, LENT_ROWS, LENT_SPLITS].map(|length| vec![FILL; length]);
        lists[short].pop();
        let [classes, parts, rows, splits] = &mut lists;
        let lent = LentLists { classes, parts, rows, splits };
        assert_eq!(Table::build_in(&list, lent), Err(Refusal::LentLists));
        assert!(lists.iter().flatten().all(|&byte| byte == FILL));
    }
}

#[test]
fn more_than_a_table_has_is_refused() {
    // 65 classes: no table, but an index.
    let many = fan(64);
    assert_eq!(Table::build(&List::check(&many).unwrap()), Err(Refusal::TooMany));
    assert_eq!(Index::prepare(&List::check(&many).unwrap()).unwrap().index().splits().len(), 66 * SPLIT_SIZE);
    let fewer = List::check(&many[8..]).unwrap();
    assert_eq!(Table::build(&fewer).unwrap().lists().rows.len() / SET_SIZE, 64 * 65);
}
