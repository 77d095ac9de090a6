//! The bit matrix through the archive: its sets by their definition, the matrix feed beside the plain feed on random lists and flows, and beside a
//! feed that reads the stored sets on matrices of any content. `WATCH_MATRICES` is the number of lists (60 unless it is set).

mod common;

use common::{builders, dice, number, ordinary};

use dice::Dice;
use ordinary::{bytes_of, set_of, Automaton, Set};
use watch::{Flow, List, Matrix, Refusal, BYTE_VALUES, ENOUGH_WORDS, FLOW_SIZE, ROW_SIZE, SET_SIZE};

/// A list of a few states, of which the highest is named by one record alone, of each kind in turn.
fn few_states(dice: &mut Dice, turn: usize) -> Vec<u8> {
    let record = |bytes: [u8; 4], middle: usize, last: usize| {
        [&bytes[..], &(middle as u16).to_le_bytes(), &(last as u16).to_le_bytes()].concat()
    };
    let most = dice.from(1, 12);
    let mut records = vec![record([2, 0, 0, 0], 0, dice.below(most))];
    for _ in 0..dice.from(1, 12) {
        let low = dice.pick(&[0, b'A', b'a', b'b', b'z', 200]);
        let high = dice.pick(&[low, low, low, b'z'.max(low), 255]);
        records.push(record([1, low, high, dice.below(2) as u8], dice.below(most), dice.below(most)));
    }
    for _ in 0..dice.below(4) {
        records.push(record([3, 0, 0, 0], dice.below(most), dice.below(256)));
    }
    records.push(match turn % 4 {
        0 => record([1, 0, 255, 0], most, 0),
        1 => record([1, 0, 255, 0], 0, most),
        2 => record([2, 0, 0, 0], 0, most),
        _ => record([3, 0, 0, 0], most, 9),
    });
    dice.shuffle(&mut records);
    records.concat()
}

#[test]
fn the_filler_writes_each_state_s_own_step() {
    let mut dice = Dice(5);
    for turn in 0..20 {
        let bytes = few_states(&mut dice, turn);
        let (list, automaton) = (List::check(&bytes).unwrap(), Automaton::read(&bytes).unwrap());
        let matrix = Matrix::fill(&list, vec![0xA5; list.matrix_size()]).unwrap();
        let states = list.matrix_size() / ROW_SIZE;
        for state in 0..states {
            for byte in 0..BYTE_VALUES {
                let at = SET_SIZE * (BYTE_VALUES * state + byte);
                let step = automaton.step(&Set::from([state as u16]), byte as u8);
                assert_eq!(set_of(&matrix.as_bytes()[at..at + SET_SIZE]), step, "state {state}, byte {byte}, list {bytes:?}");
            }
        }
        // One byte more, one less, a state more: refused, and nothing is written.
        for length in [list.matrix_size() - 1, list.matrix_size() + 1, list.matrix_size() + ROW_SIZE] {
            let mut buffer = vec![0xA5; length];
            assert_eq!(Matrix::fill(&list, &mut buffer[..]).err(), Some(Refusal::TableLists));
            assert!(buffer.iter().all(|&byte| byte == 0xA5));
        }
    }
}

#[test]
fn the_matrix_feed_is_the_plain_feed() {
    let lists = number("WATCH_MATRICES", 60) as usize;
    let (mut feeds, mut refusals, mut pairs) = (0, 0, 0);
    for turn in 0..lists {
        let mut dice = Dice(1000 + turn as u64);
        let bytes = if turn % 8 == 7 { builders::good_list(&mut dice) } else { few_states(&mut dice, turn) };
        let list = List::check(&bytes).unwrap();
        let matrix = Matrix::fill(&list, vec![0xFF; list.matrix_size()]).unwrap();
        let mut flow = Flow::open_all(&list, |_| ());
        for _ in 0..200 {
            if dice.once_in(9) {
                let record = builders::saved_record(&mut dice, Automaton::read(&bytes).ok().as_ref());
                flow = match <[u8; FLOW_SIZE]>::try_from(record) {
                    Ok(record) => Flow::from_bytes(record),
                    Err(_) => continue,
                };
            }
            let piece = builders::piece(&mut dice);
            let start = if dice.once_in(20) { dice.next() } else { u64::from(flow.offset()) };
            let words: Vec<u32> = (0..builders::words(&mut dice)).map(|_| dice.next() as u32).collect();
            let (mut by_list, mut by_matrix) = (flow.clone(), flow.clone());
            let (mut told, mut told_too) = (words.clone(), words);
            let fed = by_list.feed(&list, start, &piece, &mut told);
            assert_eq!(by_matrix.matrix_feed(&matrix, start, &piece, &mut told_too), fed);
            assert_eq!((by_matrix.as_bytes(), told_too), (by_list.as_bytes(), told), "list {bytes:?}, piece {piece:?}");
            feeds += 1;
            match fed {
                Ok(fed) => pairs += fed.pairs,
                Err(_) => refusals += 1,
            }
            flow = by_list;
        }
    }
    println!("matrix: {feeds} feeds of {lists} lists, {refusals} of them refused, {pairs} pairs told, all as the plain feed");
    assert!(refusals > 0 && pairs > 0);
}

#[test]
fn any_matrix_runs_as_stored() {
    let mut dice = Dice(77);
    for turn in 0..12 {
        let bytes = few_states(&mut dice, turn);
        let list = List::check(&bytes).unwrap();
        let automaton = Automaton::read(&bytes).unwrap();
        let states = list.matrix_size() / ROW_SIZE;
        // Random bytes, few of them not 0, so that frontiers stay small; states past the highest among them.
        let byte = |dice: &mut Dice| if dice.once_in(90) { dice.byte() & dice.byte() } else { 0 };
        let stored: Vec<u8> = (0..list.matrix_size()).map(|_| byte(&mut dice)).collect();
        let matrix = Matrix::from_saved(&list, &stored[..]);
        let mut flow = Flow::open_all(&list, |_| ());
        for _ in 0..60 {
            let piece = [dice.byte()];
            let frontier: Set = flow.frontier().collect();
            let mut next = Set::new();
            for &state in frontier.iter().filter(|&&state| usize::from(state) < states) {
                let at = SET_SIZE * (BYTE_VALUES * usize::from(state) + usize::from(piece[0]));
                next.extend(set_of(&stored[at..at + SET_SIZE]));
            }
            let (before, rows) = (flow.clone(), flow.rows_read());
            let mut words = [0; ENOUGH_WORDS];
            let fed = flow.matrix_feed(&matrix, u64::from(before.offset()), &piece, &mut words);
            if fed == Err(Refusal::FlowRecord) {
                // A stored set has led to a state that no record names.
                assert_eq!(before, flow);
                flow = Flow::open_all(&list, |_| ());
                continue;
            }
            let fed = fed.unwrap();
            assert_eq!(flow.as_bytes()[..SET_SIZE], bytes_of(&next));
            assert_eq!(flow.rows_read(), rows + frontier.len() as u64);
            let told: Vec<u32> = fed.told(&words).map(|pair| pair.signature).collect();
            assert_eq!(told, automaton.accepted(&next).into_iter().map(u32::from).collect::<Vec<u32>>());
        }
    }
}
