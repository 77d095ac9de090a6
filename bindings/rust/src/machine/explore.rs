//! Looks for the certificate that an automaton with bits and counters is a list's.
//!
//! List and automaton go side by side from the opening, breadth first over pairs of a configuration
//! and a set, so that the first input on which they tell other pairs is a shortest one. Bytes on
//! which all states of both go alike are stepped once. None of this is proved, and none of it has
//! to be: what is found goes through the proved check.

use std::collections::HashMap;
use std::fmt;
use std::vec::Vec;

use super::{Certificate, Instruction, Machine};
use crate::{Flow, List, Pair, Refusal};
use crate::{BYTE_VALUES, MOST_NOTES, NOTE_SIZE, RECORD_SIZE, SET_SIZE, X_COUNTERS, X_OFF};

/// Pairs of a configuration and a set that the search meets before it gives up.
const MOST_PAIRS: usize = 65_536;

const SET_WORDS: usize = SET_SIZE / 8;

/// A set of states of the list, or of signatures: bit s mod 64 of word s div 64.
type Set = [u64; SET_WORDS];

fn insert(set: &mut Set, member: usize) {
    set[member / 64] |= 1 << (member % 64);
}

fn members(set: &Set) -> impl Iterator<Item = usize> + '_ {
    set.iter()
        .enumerate()
        .flat_map(|(at, word)| (0..64usize).filter(move |bit| word >> bit & 1 == 1).map(move |bit| 64 * at + bit))
}

/// A configuration: a flow record of the automaton without its offset.
#[derive(Clone, PartialEq, Eq, Hash)]
struct Config {
    state: usize,
    bits: u64,
    counters: [u32; X_COUNTERS],
}

impl Config {
    /// Runs the program of its state; what is alerted.
    fn run(&mut self, program: &[Instruction]) -> Set {
        let mut alerts = [0; SET_WORDS];
        for one in program {
            match *one {
                Instruction::Nothing => {}
                Instruction::SetBit(bit) => self.bits |= 1 << bit,
                Instruction::ClearBit(bit) => self.bits &= !(1 << bit),
                Instruction::SetCounter { counter, to } => self.counters[usize::from(counter)] = u32::from(to),
                Instruction::TurnOff(counter) => self.counters[usize::from(counter)] = X_OFF,
                Instruction::Lower(counter) => {
                    let count = &mut self.counters[usize::from(counter)];
                    *count = if *count == 0 || *count == X_OFF { X_OFF } else { *count - 1 };
                }
                Instruction::Alert(signature) => insert(&mut alerts, usize::from(signature)),
                Instruction::AlertIfBit { signature, bit } => {
                    if self.bits >> bit & 1 == 1 {
                        insert(&mut alerts, usize::from(signature));
                    }
                }
                Instruction::AlertIfZero { signature, counter } => {
                    if self.counters[usize::from(counter)] == 0 {
                        insert(&mut alerts, usize::from(signature));
                    }
                }
            }
        }
        alerts
    }

    /// A record of a certificate: the configuration, and a set.
    fn write(&self, set: &Set, out: &mut Vec<u8>) {
        out.extend((self.state as u16).to_le_bytes());
        out.extend([0; 2]);
        out.extend(self.bits.to_le_bytes());
        self.counters.iter().for_each(|count| out.extend(count.to_le_bytes()));
        set.iter().for_each(|word| out.extend(word.to_le_bytes()));
    }
}

/// A list's automaton, with its steps on one byte of each class.
struct Sets {
    start: Set,
    accepts: HashMap<usize, Set>,
    /// For each class where its byte leads from a state.
    leads: Vec<HashMap<usize, Set>>,
}

/// Whether an edge is taken on a byte, as the list's rules say.
fn taken(edge: &[u8], byte: u8) -> bool {
    let between = |byte: u8| edge[1] <= byte && byte <= edge[2];
    between(byte) || edge[3] == 1 && byte.is_ascii_alphabetic() && between(byte ^ 32)
}

fn two(bytes: &[u8]) -> usize {
    usize::from(u16::from_le_bytes([bytes[0], bytes[1]]))
}

fn union(sets: &HashMap<usize, Set>, of: &Set) -> Set {
    let mut out = [0; SET_WORDS];
    for state in members(of) {
        if let Some(set) = sets.get(&state) {
            out.iter_mut().zip(set).for_each(|(word, more)| *word |= more);
        }
    }
    out
}

impl Sets {
    fn new(list: &[u8], letters: &[u8]) -> Sets {
        let (mut start, mut accepts) = ([0; SET_WORDS], HashMap::new());
        let mut leads: Vec<HashMap<usize, Set>> = letters.iter().map(|_| HashMap::new()).collect();
        for record in list.chunks_exact(RECORD_SIZE) {
            let (middle, last) = (two(&record[4..]), two(&record[6..]));
            match record[0] {
                1 => {
                    for (lead, byte) in leads.iter_mut().zip(letters) {
                        if taken(record, *byte) {
                            insert(lead.entry(middle).or_insert([0; SET_WORDS]), last);
                        }
                    }
                }
                2 => insert(&mut start, last),
                _ => insert(accepts.entry(middle).or_insert([0; SET_WORDS]), last),
            }
        }
        Sets { start, accepts, leads }
    }
}

/// A byte for each class of bytes on which the same edges are taken and all states of the automaton
/// go alike; those that can be seen first.
fn letters(list: &[u8], machine: &Machine<'_>) -> Vec<u8> {
    let mut shapes: Vec<&[u8]> =
        list.chunks_exact(RECORD_SIZE).filter(|record| record[0] == 1).map(|record| &record[..4]).collect();
    shapes.sort_unstable();
    shapes.dedup();
    let mut found = HashMap::new();
    for at in 0..BYTE_VALUES {
        let byte = (at as u8).wrapping_add(b'a');
        let takes: Vec<bool> = shapes.iter().map(|shape| taken(shape, byte)).collect();
        let goes: Vec<usize> = (0..machine.states()).map(|state| machine.target(state, byte)).collect();
        found.entry((takes, goes)).or_insert(at);
    }
    let mut out: Vec<usize> = found.into_values().collect();
    out.sort_unstable();
    out.into_iter().map(|at| (at as u8).wrapping_add(b'a')).collect()
}

/// Why there is no certificate.
#[derive(Clone, Debug, PartialEq, Eq)]
#[non_exhaustive]
pub enum NoCertificate {
    /// The two tell other pairs.
    OtherPairs {
        /// A shortest input that shows it.
        input: Vec<u8>,
        /// What the list tells on it.
        listed: Vec<Pair>,
        /// What the automaton tells on it.
        counted: Vec<Pair>,
    },
    /// After two inputs the automaton is in one configuration, and the list in two sets; and a
    /// certificate has one set for each configuration. On every input the two tell the same pairs
    /// all the same.
    TwoSets {
        /// The one input.
        first: Vec<u8>,
        /// The other.
        second: Vec<u8>,
    },
    /// More than [`MOST_NOTES`] configurations or sets are met.
    TooMany {
        /// How many configurations were met.
        configurations: usize,
        /// How many sets were met.
        sets: usize,
        /// Whether these are all; else the search has given up, at 65,536 pairs of both.
        all: bool,
    },
    /// The check refuses what was found. That would be a fault of the search.
    Refused(Refusal),
}

impl fmt::Display for NoCertificate {
    fn fmt(&self, f: &mut fmt::Formatter<'_>) -> fmt::Result {
        match self {
            NoCertificate::OtherPairs { input, listed, counted } => write!(
                f,
                "list and automaton tell other pairs on an input of {} bytes: {} and {} of them",
                input.len(),
                listed.len(),
                counted.len()
            ),
            NoCertificate::TwoSets { first, second } => write!(
                f,
                "the automaton has one configuration and the list two sets after inputs of {} and {} bytes",
                first.len(),
                second.len()
            ),
            NoCertificate::TooMany { configurations, sets, all } => write!(
                f,
                "{}{configurations} configurations and {sets} sets are met, and a certificate has at most {MOST_NOTES} records",
                if *all { "" } else { "more than " }
            ),
            NoCertificate::Refused(refusal) => write!(f, "what was found is refused: {refusal}"),
        }
    }
}

impl std::error::Error for NoCertificate {}

/// The pairs of a configuration and a set that were met: each with the one before it and the byte
/// between.
struct Search {
    pairs: Vec<(Config, Set)>,
    before: Vec<Option<(usize, u8)>>,
    met: HashMap<(Config, Set), usize>,
    by_config: HashMap<Config, usize>,
    two: Option<(usize, usize)>,
}

impl Search {
    fn input(&self, at: usize) -> Vec<u8> {
        let (mut at, mut out) = (at, Vec::new());
        while let Some((before, byte)) = self.before[at] {
            out.push(byte);
            at = before;
        }
        out.reverse();
        out
    }

    fn meet(&mut self, config: Config, set: Set, before: Option<(usize, u8)>) {
        let at = self.pairs.len();
        if *self.met.entry((config.clone(), set)).or_insert(at) == at {
            let first = *self.by_config.entry(config.clone()).or_insert(at);
            if first != at && self.two.is_none() {
                self.two = Some((first, at));
            }
            self.pairs.push((config, set));
            self.before.push(before);
        }
    }

    /// Goes on until all is met, or too much; or the input of the first difference.
    fn run(&mut self, sets: &Sets, machine: &Machine<'_>, letters: &[u8]) -> Result<bool, Vec<u8>> {
        let programs: Vec<_> = (0..machine.states()).map(|state| machine.program(state)).collect();
        let mut config = Config { state: 0, bits: 0, counters: [X_OFF; X_COUNTERS] };
        if config.run(&programs[0]) != union(&sets.accepts, &sets.start) {
            return Err(Vec::new());
        }
        self.meet(config, sets.start, None);
        let mut at = 0;
        while at < self.pairs.len() && self.pairs.len() <= MOST_PAIRS {
            for (lead, byte) in sets.leads.iter().zip(letters) {
                let (mut config, set) = (self.pairs[at].0.clone(), union(lead, &self.pairs[at].1));
                config.state = machine.target(config.state, *byte);
                if config.run(&programs[config.state]) != union(&sets.accepts, &set) {
                    let mut input = self.input(at);
                    input.push(*byte);
                    return Err(input);
                }
                self.meet(config, set, Some((at, *byte)));
            }
            at += 1;
        }
        Ok(at == self.pairs.len())
    }

    fn sets(&self) -> usize {
        let mut sets: Vec<&Set> = self.pairs.iter().map(|(_, set)| set).collect();
        sets.sort_unstable();
        sets.dedup();
        sets.len()
    }
}

/// What both tell on an input.
fn other_pairs(list: &List<'_>, machine: &Machine<'_>, input: Vec<u8>) -> NoCertificate {
    let (mut listed, mut counted) = (Vec::new(), Vec::new());
    let mut flow = Flow::open_all(list, |pair| listed.push(pair));
    flow.feed_all(list, 0, &input, |pair| listed.push(pair)).expect("a flow that was opened on the list");
    let mut flow = super::Flow::open_all(machine, |pair| counted.push(pair));
    flow.feed_all(machine, 0, &input, |pair| counted.push(pair)).expect("a flow that was opened on the automaton");
    NoCertificate::OtherPairs { input, listed, counted }
}

/// A certificate that was found, in memory of its own. It has passed the check.
#[derive(Clone, Debug, PartialEq, Eq)]
pub struct Explored<'a> {
    list: List<'a>,
    machine: Machine<'a>,
    bytes: Vec<u8>,
}

impl Explored<'_> {
    /// The certificate. It is checked anew.
    #[must_use]
    pub fn certificate(&self) -> Certificate<'_> {
        Certificate::check(&self.list, &self.machine, &self.bytes).expect("it has passed before")
    }

    /// The certificate's bytes.
    #[must_use]
    pub fn as_bytes(&self) -> &[u8] {
        &self.bytes
    }

    /// The certificate's bytes, to be kept.
    #[must_use]
    pub fn into_bytes(self) -> Vec<u8> {
        self.bytes
    }

    /// The number of records.
    #[must_use]
    pub fn records(&self) -> usize {
        self.bytes.len() / NOTE_SIZE
    }
}

impl<'a> Certificate<'a> {
    /// Looks for the certificate that an automaton is a list's, and puts it through the check.
    ///
    /// # Errors
    ///
    /// [`NoCertificate`] says why there is none.
    ///
    /// ```
    /// use watch::machine::{Builder, Certificate, Instruction, NoCertificate};
    /// use watch::List;
    ///
    /// // Signature 7 after any "ab": as a list, and as an automaton.
    /// # let bytes = *b"\x01\x00\xFF\0\0\0\0\0\x01aa\0\0\0\x01\0\x01bb\0\x01\0\x02\0\x02\0\0\0\0\0\0\0\x03\0\0\0\x02\0\x07\0";
    /// let list = List::check(&bytes).unwrap();
    /// let mut builder = Builder::new();
    /// let [none, a, ab] = [builder.state(&[]), builder.state(&[]), builder.state(&[Instruction::Alert(7)])];
    /// for state in [none, a, ab] {
    ///     builder.on(state, b'a'..=b'a', a).otherwise(state, none);
    /// }
    /// builder.on(a, b'b'..=b'b', ab);
    /// let lists = builder.build().unwrap();
    /// let found = Certificate::explore(&list, &lists.machine()).unwrap();
    /// assert_eq!(found.records(), 3);
    ///
    /// // One that tells each further "b" too.
    /// builder.on(ab, b'b'..=b'b', ab);
    /// let lists = builder.build().unwrap();
    /// let none = Certificate::explore(&list, &lists.machine()).unwrap_err();
    /// assert!(matches!(none, NoCertificate::OtherPairs { input, .. } if input == b"abb"));
    /// ```
    pub fn explore(list: &List<'a>, machine: &Machine<'a>) -> Result<Explored<'a>, NoCertificate> {
        let letters = letters(list.as_bytes(), machine);
        let sets = Sets::new(list.as_bytes(), &letters);
        let mut search =
            Search { pairs: Vec::new(), before: Vec::new(), met: HashMap::new(), by_config: HashMap::new(), two: None };
        let all = search.run(&sets, machine, &letters).map_err(|input| other_pairs(list, machine, input))?;
        let (configurations, sets) = (search.by_config.len(), search.sets());
        if !all || configurations > MOST_NOTES || sets > MOST_NOTES {
            return Err(NoCertificate::TooMany { configurations, sets, all });
        }
        if let Some((first, second)) = search.two {
            return Err(NoCertificate::TwoSets { first: search.input(first), second: search.input(second) });
        }
        let mut bytes = Vec::new();
        search.pairs.iter().for_each(|(config, set)| config.write(set, &mut bytes));
        let found = Explored { list: *list, machine: *machine, bytes };
        match Certificate::check(list, machine, &found.bytes) {
            Ok(_) => Ok(found),
            Err(refusal) => Err(NoCertificate::Refused(refusal)),
        }
    }
}
