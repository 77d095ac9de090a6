//! The lists, tables, flow records and pieces that the rows of the table run on. All are made by rule, so every run has the same.
use crate::later::chunks;
use crate::row::number;
use crate::sizes::{
    BYTE_VALUES, CLASSES, FLOW_SIZE, MOST_PARTS, MOST_RECORDS, MOST_SPLITS, RECORD_SIZE, SET_SIZE, SIGNATURES, SLOTS,
    SPLIT_SIZE, STATES,
};
use crate::table::{self, Lists};
use std::collections::BTreeSet;

/// A split table that owns its four lists.
pub struct Table {
    pub classes: Vec<u8>,
    pub parts: Vec<u8>,
    pub rows: Vec<u8>,
    pub splits: Vec<u8>,
}

impl Table {
    pub fn lent(&self) -> table::Table<'_> {
        table::Table { classes: &self.classes, parts: &self.parts, rows: &self.rows, splits: &self.splits }
    }
}

/// A set as its bytes.
pub type Bytes = [u8; SET_SIZE];

/// A record of the list.
type Record = [u8; RECORD_SIZE];

/// A small generator of numbers (splitmix64).
pub struct Dice(pub u64);

impl Dice {
    pub fn below(&mut self, n: u64) -> u64 {
        self.0 = self.0.wrapping_add(0x9e37_79b9_7f4a_7c15);
        let mut z = self.0;
        z = (z ^ (z >> 30)).wrapping_mul(0xbf58_476d_1ce4_e5b9);
        z = (z ^ (z >> 27)).wrapping_mul(0x94d0_49bb_1331_11eb);
        (z ^ (z >> 31)) % n
    }

    fn state(&mut self) -> u16 {
        self.below(STATES as u64) as u16
    }

    /// A state that is not below another.
    fn state_from(&mut self, from: u16) -> u16 {
        from + self.below(STATES as u64 - u64::from(from)) as u16
    }

    fn signature(&mut self) -> u16 {
        self.below(SIGNATURES as u64) as u16
    }

    /// Puts the records of a list into another order.
    fn mix(&mut self, list: &mut [Record]) {
        for i in (1..list.len()).rev() {
            list.swap(i, self.below(i as u64 + 1) as usize);
        }
    }
}

pub fn set_of(states: impl IntoIterator<Item = u16>) -> Bytes {
    let mut set = [0; SET_SIZE];
    for s in states {
        set[usize::from(s / 8)] |= 1 << (s % 8);
    }
    set
}

/// The set of the first n states.
pub fn first(n: usize) -> Bytes {
    set_of((0..n).map(|s| s as u16))
}

fn join(sets: impl IntoIterator<Item = Bytes>) -> Bytes {
    let mut all = [0; SET_SIZE];
    for set in sets {
        all.iter_mut().zip(set).for_each(|(a, b)| *a |= b);
    }
    all
}

fn holds(set: &Bytes, s: u16) -> bool {
    set[usize::from(s / 8)] >> (s % 8) & 1 == 1
}

/// A record of a kind, with its bytes 1 and 2 and its two numbers.
fn record(kind: u8, low: u8, high: u8, from: u16, to: u16) -> Record {
    let ([a, b], [c, d]) = (from.to_le_bytes(), to.to_le_bytes());
    [kind, low, high, 0, a, b, c, d]
}

fn edge(low: u8, high: u8, from: u16, to: u16) -> Record {
    record(1, low, high, from, to)
}

fn start(state: u16) -> Record {
    record(2, 0, 0, 0, state)
}

fn accept(state: u16, signature: u16) -> Record {
    record(3, 0, 0, state, signature)
}

/// The state that a record leaves or names, and what it leads to.
fn numbers(record: &Record) -> (u16, u16) {
    let [.., a, b, c, d] = *record;
    (u16::from_le_bytes([a, b]), u16::from_le_bytes([c, d]))
}

/// The step of a set on a byte, for building tables.
fn step(list: &[Record], set: &Bytes, byte: u8) -> Bytes {
    set_of(
        list.iter()
            .filter(|r| r[0] == 1 && r[1] <= byte && byte <= r[2] && holds(set, numbers(r).0))
            .map(|r| numbers(r).1),
    )
}

/// A flow record: a frontier at offset 0.
pub fn flow_at(frontier: Bytes) -> [u8; FLOW_SIZE] {
    let mut record = [0; FLOW_SIZE];
    record[..SET_SIZE].copy_from_slice(&frontier);
    record
}

/// Printable bytes without 'a', so that the barn list keeps its one state.
pub fn line(n: usize) -> Vec<u8> {
    let mut dice = Dice(7);
    (0..n)
        .map(|_| match 32 + dice.below(95) as u8 {
            b'a' => b'.',
            c => c,
        })
        .collect()
}

/// The barn list: signature 7 after any "ab". 5 records.
pub fn barn_list() -> Vec<u8> {
    [edge(0, 255, 0, 0), edge(b'a', b'a', 0, 1), edge(b'b', b'b', 1, 2), start(0), accept(2, 7)].concat()
}

/// An edge on one to six bytes.
fn narrow_edge(dice: &mut Dice, from: u16, to: u16) -> Record {
    let low = dice.below(250) as u8;
    edge(low, low + dice.below(6) as u8, from, to)
}

/// A list of n records whose frontier is the first `frontier` states at every byte: each has an edge to itself on all bytes. The other
/// edges have narrow ranges, leave any state, and lead back into the frontier where they leave it. One record in sixteen accepts.
pub fn steady_list(n: usize, frontier: usize) -> Vec<u8> {
    let mut dice = Dice((n * 1000 + frontier) as u64);
    let mut list = vec![start(0)];
    list.extend((0..frontier).map(|s| edge(0, 255, s as u16, s as u16)));
    list.truncate(n);
    while list.len() < n {
        let from = dice.state();
        // A frontier of all states would tell every signature at every byte: its list has edges alone.
        if list.len() % 16 == 15 && frontier < STATES {
            let state = frontier + usize::from(from) % (STATES - frontier);
            list.push(accept(state as u16, dice.signature()));
            continue;
        }
        let to = if usize::from(from) < frontier { dice.below(frontier as u64) as u16 } else { dice.state() };
        list.push(narrow_edge(&mut dice, from, to));
    }
    dice.mix(&mut list);
    list.concat()
}

/// The same of the first `states` states alone.
pub fn small_list(n: usize, frontier: usize, states: u16) -> Vec<u8> {
    let mut dice = Dice((n * 2000 + frontier) as u64);
    let mut list = vec![start(0)];
    list.extend((0..frontier).map(|s| edge(0, 255, s as u16, s as u16)));
    while list.len() < n {
        let from = dice.below(states.into()) as u16;
        if list.len() % 16 == 15 && frontier < usize::from(states) {
            let state = frontier as u16 + from % (states - frontier as u16);
            list.push(accept(state, dice.signature()));
            continue;
        }
        let most = if usize::from(from) < frontier { frontier as u64 } else { states.into() };
        let to = dice.below(most) as u16;
        list.push(narrow_edge(&mut dice, from, to));
    }
    // The last state is named, so that the matrix has a row for each.
    list[1 + frontier] = edge(0, 0, states - 1, states - 1);
    dice.mix(&mut list);
    list.concat()
}

/// The list with every edge for either case.
pub fn either_case(mut list: Vec<u8>) -> Vec<u8> {
    for record in list.chunks_exact_mut(RECORD_SIZE) {
        if record[0] == 1 {
            record[3] = 1;
        }
    }
    list
}

/// A full list of one start and edges of one letter in either case, from every state to itself and from others: fed the other case, each
/// record of a frontier of all states passes every test before its target is put.
pub fn one_letter_list(letter: u8) -> Vec<u8> {
    let mut dice = Dice(letter.into());
    let mut list = vec![start(0)];
    list.extend((0..STATES).map(|s| edge(letter, letter, s as u16, s as u16)));
    while list.len() < MOST_RECORDS {
        let (from, to) = (dice.state(), dice.state());
        list.push(edge(letter, letter, from, to));
    }
    dice.mix(&mut list);
    either_case(list.concat())
}

/// The orders of a line: each a letter and then its digit, "A0" to "H7". State 0 stays for ever; order i is at state 1 + i after its
/// letter and at state 1 + ORDERS + i after its digit, which accepts.
const ORDERS: u8 = 8;
const ORDER_STATES: u16 = 1 + 2 * ORDERS as u16;

fn letter(order: u8) -> u8 {
    b'A' + order
}

fn digit(order: u8) -> u8 {
    b'0' + order
}

/// A list of n records: the orders, each with two signatures, among edges with narrow ranges that leave other states and lead anywhere.
/// One record in sixteen accepts.
pub fn orders_list(n: usize) -> Vec<u8> {
    let mut dice = Dice(n as u64);
    let mut list = vec![start(0), edge(0, 255, 0, 0)];
    for order in 0..ORDERS {
        let (half, whole) = (1 + u16::from(order), 1 + u16::from(ORDERS + order));
        list.push(edge(letter(order), letter(order), 0, half));
        list.push(edge(digit(order), digit(order), half, whole));
        list.push(accept(whole, order.into()));
        list.push(accept(whole, 128 + u16::from(order)));
    }
    for _ in 2 * usize::from(ORDERS)..n / 16 {
        list.push(accept(dice.state_from(ORDER_STATES), dice.signature()));
    }
    while list.len() < n {
        let (from, to) = (dice.state_from(ORDER_STATES), dice.state());
        list.push(narrow_edge(&mut dice, from, to));
    }
    dice.mix(&mut list);
    list.concat()
}

/// Printable bytes in which letters of orders stand, and no whole order: nothing is told.
pub fn quiet_bytes(n: usize) -> Vec<u8> {
    let mut bytes = line(n);
    for i in 1..n {
        if (0..ORDERS).any(|order| bytes[i - 1] == letter(order) && bytes[i] == digit(order)) {
            bytes[i] = b'.';
        }
    }
    bytes
}

/// One order after another: two pairs at every second byte.
pub fn telling_bytes(n: usize) -> Vec<u8> {
    telling(ORDERS, n)
}

fn telling(orders: u8, n: usize) -> Vec<u8> {
    let orders = (0..orders).cycle().flat_map(|order| [letter(order), digit(order)]);
    orders.take(n).collect()
}

/// How the names of rows end in which nothing is told, and of those with two pairs at every second byte.
pub const QUIET: &str = "quiet bytes";
pub const TELLING: &str = "bytes that tell";

/// Bytes of a kind, of any length.
type Kind = (&'static str, fn(usize) -> Vec<u8>);

/// Traffic for the orders' list, and for the busy list.
pub const TRAFFIC: [Kind; 2] = [(QUIET, quiet_bytes), (TELLING, telling_bytes)];
pub const BUSY: [Kind; 2] = [(QUIET, quiet_bytes), (TELLING, busy_telling)];

/// The length of pieces, as the names of rows have it.
pub fn pieces(bytes: usize) -> String {
    match bytes {
        1 => "1 byte".into(),
        _ => format!("{} bytes", number(bytes)),
    }
}

/// The orders of the busy list, the states that its frontiers always hold, and the first state that is neither among these nor an order's.
const BUSY_ORDERS: u8 = 7;
const STAY: [u16; 3] = [0, 1, 512];
const UNREACHED: u16 = 2 + 2 * BUSY_ORDERS as u16;

/// A list of 34 records: three start states that are in every frontier, and orders from the first of them, each with two signatures.
pub fn busy_list() -> Vec<u8> {
    let mut list: Vec<Record> = STAY.into_iter().map(start).collect();
    list.extend([(0, 0), (1, 1), (0, 512)].map(|(from, to)| edge(0, 255, from, to)));
    for order in 0..BUSY_ORDERS {
        let half = 2 + u16::from(order);
        let whole = half + u16::from(BUSY_ORDERS);
        list.push(edge(letter(order), letter(order), 0, half));
        list.push(edge(digit(order), digit(order), half, whole));
        list.push(accept(whole, order.into()));
        list.push(accept(whole, 128 + u16::from(order)));
    }
    list.concat()
}

/// The frontier of the busy list where no order has begun.
pub fn busy_start() -> Bytes {
    set_of(STAY)
}

/// The same where the first order has begun, and the byte that ends it and tells its two pairs.
pub fn busy_begun() -> Bytes {
    join([busy_start(), set_of([2])])
}

pub fn busy_end(_: usize) -> Vec<u8> {
    vec![digit(0)]
}

/// As `telling_bytes`, of the orders of the busy list.
pub fn busy_telling(n: usize) -> Vec<u8> {
    telling(BUSY_ORDERS, n)
}

/// A table of n splits, 16 or more, for the busy list. A split that is reached takes one slot at bound 1; at bound 4 it takes four, or three where
/// no order has begun. The other splits hold the first two states that stay and some that no edge leaves, for every second one all of them above
/// 512: so the frontier without orders stands near the middle, and two sets often have their first words in common. With one slot in a split and
/// 1,024 parts no more than 1,025 sets can be splits; past that the set of a split that is not reached is not the union of its parts, which the
/// table check refuses and the feed does not look at.
pub fn busy_table(n: usize, bound: u64) -> Table {
    let mut b = Builder::new(n as u64 * 10 + bound);
    let one = bound == 1;
    let stay = match one {
        true => vec![b.part(busy_start())],
        false => [&STAY[..], &[0], &[1]].map(|states| b.part(set_of(states.iter().copied()))).to_vec(),
    };
    b.split(stay.clone());
    for s in 2..UNREACHED {
        let slots = match one {
            true => vec![b.part(join([busy_start(), set_of([s])]))],
            false => [&stay[..], &[b.part(set_of([s]))]].concat(),
        };
        b.split(slots);
    }
    let two = set_of([0, 1]);
    if one {
        b.fill_lone(n, two);
    } else {
        b.fill_joined(n, two);
    }
    let mut classes = vec![0; BYTE_VALUES];
    for order in 0..BUSY_ORDERS {
        classes[usize::from(letter(order))] = 1 + order;
        classes[usize::from(digit(order))] = 1 + BUSY_ORDERS + order;
    }
    b.table(&busy_list(), classes)
}

/// A list of 5 records: after the first byte the frontier is the states 0 to width - 1, for ever.
pub fn wide_list(width: u8) -> Vec<u8> {
    let mut list = vec![start(0)];
    list.extend((0..width).map(|s| edge(0, 255, 0, s.into())));
    while list.len() < 5 {
        list.push(accept(255, 1));
    }
    list.concat()
}

/// The states from which on the parts are that the rows never take: a set of them is less, as a string of bytes, than one with a state
/// below.
const IDLE: u16 = 8;

/// The list with accept records at the idle states, up to the most records.
pub fn filled(mut list: Vec<u8>) -> Vec<u8> {
    let mut dice = Dice(4096);
    while list.len() < RECORD_SIZE * MOST_RECORDS {
        list.extend(accept(dice.state_from(IDLE), dice.signature()));
    }
    list
}

fn split(set: Bytes, slots: &[u16]) -> Vec<u8> {
    let mut bytes = set.to_vec();
    for j in 0..SLOTS {
        bytes.extend(slots.get(j).unwrap_or(&u16::MAX).to_le_bytes());
    }
    bytes
}

/// Parts, and splits as unions of at most `bound` of them. `needed` splits are there; others are added up to `count`.
struct Builder {
    dice: Dice,
    parts: Vec<Bytes>,
    splits: BTreeSet<(Bytes, Vec<u16>)>,
    sets: BTreeSet<Bytes>,
}

impl Builder {
    fn new(seed: u64) -> Builder {
        Builder { dice: Dice(seed), parts: Vec::new(), splits: BTreeSet::new(), sets: BTreeSet::new() }
    }

    /// The number of a part, added where it is new.
    fn part(&mut self, set: Bytes) -> u16 {
        let found = self.parts.iter().position(|part| *part == set);
        found.unwrap_or_else(|| {
            self.parts.push(set);
            self.parts.len() - 1
        }) as u16
    }

    /// Adds the split of some parts, where its set is new.
    fn split(&mut self, mut slots: Vec<u16>) {
        slots.sort();
        slots.dedup();
        let set = join(slots.iter().map(|&p| self.parts[usize::from(p)]));
        if self.sets.insert(set) {
            self.splits.insert((set, slots));
        }
    }

    /// Adds parts of 1 to 3 states from `from` on, up to n parts.
    fn fill_parts(&mut self, n: usize, from: u16) {
        while self.parts.len() < n {
            let size = 1 + self.dice.below(3);
            let states: Vec<u16> = (0..size).map(|_| self.dice.state_from(from)).collect();
            self.part(set_of(states));
        }
    }

    /// Adds splits of `size` of the parts from `from` on, up to n splits.
    fn fill_splits(&mut self, n: usize, from: usize, size: u64) {
        let others = (self.parts.len() - from) as u64;
        while self.splits.len() < n {
            let slots = (0..size).map(|_| from as u16 + self.dice.below(others) as u16).collect();
            self.split(slots);
        }
    }

    /// Some states that no edge of the busy list leaves, all of them above 512 where they shall be high.
    fn unreached(&mut self, high: bool) -> Bytes {
        let from = if high { 513 } else { UNREACHED };
        let size = 1 + self.dice.below(8);
        let states: Vec<u16> = (0..size).map(|_| self.dice.state_from(from)).collect();
        set_of(states)
    }

    /// Adds splits of one part each, which hold a set and unreached states, up to n splits.
    fn fill_lone(&mut self, n: usize, set: Bytes) {
        while self.splits.len() < n {
            let others = self.unreached(self.splits.len() % 2 == 1);
            let set = join([set, others]);
            if self.parts.len() < MOST_PARTS {
                let part = self.part(set);
                self.split(vec![part]);
            } else if self.sets.insert(set) {
                self.splits.insert((set, vec![0]));
            }
        }
    }

    /// Adds splits of three parts each, the first of them a set and the others unreached states, up to n splits.
    fn fill_joined(&mut self, n: usize, set: Bytes) {
        let first = self.part(set);
        let from = self.parts.len();
        while self.parts.len() < MOST_PARTS.min(from + n) {
            let others = self.unreached(self.parts.len() % 2 == 1);
            self.part(others);
        }
        let pairs = (self.parts.len() - from) as u64 / 2;
        while self.splits.len() < n {
            let high = self.splits.len() % 2;
            let slots = [0; 2].map(|_| {
                let part = from + 2 * self.dice.below(pairs) as usize;
                part + (part + high) % 2
            });
            self.split(vec![first, slots[0] as u16, slots[1] as u16]);
        }
    }

    /// The table over a list, where each class steps as its first byte does.
    fn table(&self, list: &[u8], classes: Vec<u8>) -> Table {
        let list = chunks(list);
        let count = 1 + *classes.iter().max().expect("a class for each byte");
        let first: Vec<u8> = (0..count)
            .map(|k| classes.iter().position(|&class| class == k).expect("a byte of each class") as u8)
            .collect();
        let rows = self.parts.iter().flat_map(|part| first.iter().map(|&c| step(list, part, c)));
        Table {
            rows: rows.collect::<Vec<_>>().concat(),
            parts: self.parts.concat(),
            splits: self.splits.iter().flat_map(|(set, slots)| split(*set, slots)).collect(),
            classes,
        }
    }
}

/// The table of the barn list, at bound 2.
pub fn barn_table() -> Table {
    let mut b = Builder::new(1);
    for s in 0..3 {
        b.part(set_of([s]));
    }
    b.split(vec![0]);
    b.split(vec![0, 1]);
    b.split(vec![0, 2]);
    let classes = (0..=255u8).map(|c| match c {
        b'a' => 1,
        b'b' => 2,
        _ => 0,
    });
    b.table(&barn_list(), classes.collect())
}

/// The bound of `orders_table`, and its splits: one for each state of the orders.
pub const ORDERS_BOUND: u64 = 2;
pub const ORDERS_SPLITS: usize = ORDER_STATES as usize;

/// The table of `orders_list(n)`: a part for each state of the orders, and a split for each frontier that can be reached.
pub fn orders_table(n: usize) -> Table {
    let mut b = Builder::new(n as u64);
    for s in 0..ORDER_STATES {
        b.part(set_of([s]));
        b.split(vec![0, s]);
    }
    let mut classes = vec![0; BYTE_VALUES];
    for order in 0..ORDERS {
        classes[usize::from(letter(order))] = 1 + order;
        classes[usize::from(digit(order))] = 1 + ORDERS + order;
    }
    b.table(&orders_list(n), classes)
}

/// A table of n splits for `wide_list(width)`. The split of the steady frontier has `width` slots and stands last but for {0}: the
/// sets before it have idle states alone. With one slot in a split and 1,024 parts, no more than 1,025 sets can be splits;
/// past that the set of an idle split is not the union of its parts, which the table check refuses and the feed does not look at.
pub fn wide_table(n: usize, width: u8) -> Table {
    let mut b = Builder::new(n as u64 * 10 + u64::from(width));
    for s in 0..width {
        b.part(set_of([s.into()]));
    }
    b.split(vec![]);
    b.split(vec![0]);
    b.split((0..u16::from(width)).collect());
    let parts = match (n, width) {
        (16, _) => 40,
        (256, _) => 300,
        _ => MOST_PARTS,
    };
    b.fill_parts(parts, IDLE);
    if width == 1 && n > MOST_PARTS {
        while b.splits.len() < n {
            let states: Vec<u16> = (0..4).map(|_| b.dice.state_from(IDLE)).collect();
            let set = set_of(states);
            if b.sets.insert(set) {
                b.splits.insert((set, vec![0]));
            }
        }
    } else {
        b.fill_splits(n, usize::from(width), u64::from(width));
    }
    b.table(&wide_list(width), vec![0; BYTE_VALUES])
}

/// The largest list and table that the check accepts: the most records, parts of 1 to 3 states, classes of 4 bytes and splits, at the
/// largest bound. On class k a state leads to the states of one set A of k, of another set B of k, or nowhere; so each step of a split is
/// one of A, B, their union, and the empty set, and these are splits.
pub fn largest() -> (Vec<u8>, Table) {
    let mut b = Builder::new(4096);
    let mut list = vec![start(0)];
    let home = b.part(set_of([0]));
    b.split(vec![]);
    b.split(vec![home]);
    for class in 0..CLASSES as u8 {
        let pair = |b: &mut Builder| loop {
            let (x, y) = (b.dice.state(), b.dice.state());
            if x != y {
                break [x, y];
            }
        };
        let groups = [pair(&mut b), pair(&mut b)];
        let numbers = groups.map(|group| b.part(set_of(group)));
        b.split(vec![numbers[0]]);
        b.split(vec![numbers[1]]);
        b.split(numbers.to_vec());
        if class < CLASSES as u8 - 2 {
            let mut leaving = BTreeSet::new();
            while leaving.len() < 32 {
                let from = b.dice.state();
                if leaving.insert(from) {
                    let group = groups[leaving.len() % 2];
                    list.extend(group.map(|to| edge(4 * class, 4 * class + 3, from, to)));
                }
            }
        }
    }
    while list.len() < MOST_RECORDS {
        let (state, signature) = (b.dice.state(), b.dice.signature());
        list.push(accept(state, signature));
    }
    b.dice.mix(&mut list);
    let list = list.concat();
    b.fill_parts(MOST_PARTS, 0);
    b.fill_splits(MOST_SPLITS, 0, SLOTS as u64);
    let table = b.table(&list, (0..=255u8).map(|c| c / 4).collect());
    (list, table)
}

/// The largest table over the barn list: the look-ups of rule 13 are most of its check.
pub fn largest_small_list() -> (Vec<u8>, Table) {
    let list = barn_list();
    let mut b = Builder::new(5);
    let numbers = [0, 1, 2].map(|s| b.part(set_of([s])));
    b.split(vec![]);
    for i in 1..8u8 {
        b.split(numbers.iter().copied().filter(|&p| i >> p & 1 == 1).collect());
    }
    b.fill_parts(MOST_PARTS, 0);
    b.fill_splits(MOST_SPLITS, 0, SLOTS as u64);
    let classes = (0..=255u8).map(|c| match c {
        b'a' => 1,
        b'b' => 2,
        _ => 3 + c % 61,
    });
    // Class 0 needs a byte.
    let mut classes: Vec<u8> = classes.collect();
    classes[0] = 0;
    let table = b.table(&list, classes);
    (list, table)
}

/// A list of n records from whose start 2 to the power of `places` sets can be reached, with 64 classes where the records suffice: state 0 stays for
/// ever and leads to state 1 on one class, each of the places leads to the next on every byte, and the other edges leave other states. A class is four bytes;
/// where the other edges have fewer than 64 ranges, the bytes outside them are one class more, and those that lead to state 1 another.
pub fn reaching_list(n: usize, places: u16, ranges: u8) -> Vec<u8> {
    let mut dice = Dice(n as u64 * 100 + u64::from(places));
    let mut list = vec![start(0), edge(0, 255, 0, 0), edge(96, 99, 0, 1)];
    list.extend((1..places).map(|s| edge(0, 255, s, s + 1)));
    list.push(accept(places, 7));
    for class in 0..ranges {
        list.push(edge(4 * class, 4 * class + 3, IDLE_PLACES, u16::from(class)));
    }
    while list.len() < n {
        let class = dice.below(u64::from(ranges)) as u8;
        let (from, to) = (dice.state_from(IDLE_PLACES), dice.state());
        list.push(edge(4 * class, 4 * class + 3, from, to));
    }
    dice.mix(&mut list);
    list.concat()
}

/// The states from which on the edges of `reaching_list` leave that no frontier takes.
const IDLE_PLACES: u16 = 32;

/// The table that the ordinary builder makes of a list.
pub fn built_table(list: &[u8]) -> Table {
    let mut table = Table {
        classes: vec![0; BYTE_VALUES],
        parts: vec![0; SET_SIZE * MOST_PARTS],
        rows: vec![0; SET_SIZE * MOST_PARTS * CLASSES],
        splits: vec![0; SPLIT_SIZE * MOST_PARTS],
    };
    let lists = Lists {
        classes: &mut table.classes,
        parts: &mut table.parts,
        rows: &mut table.rows,
        splits: &mut table.splits,
    };
    let built = table::build(list, lists);
    assert_eq!(built.refusal, 0, "a table within the limits");
    table.parts.truncate(built.parts);
    table.rows.truncate(built.rows);
    table.splits.truncate(built.splits);
    table
}
