//! Automata with bits and counters by states, moves and instructions, in place of the bytes of two
//! lists.

use std::fmt;
use std::ops::RangeInclusive;
use std::vec::Vec;

use super::Machine;
use crate::{Refusal, BYTE_VALUES, X_BITS, X_COUNTERS, X_MOVES_SIZE, X_PROGRAM_SIZE, X_STATES};

/// Instructions of a program, at most.
pub const MOST_INSTRUCTIONS: usize = X_PROGRAM_SIZE / 4;

/// An instruction of a state's program. As text it is the words that `tools/show` says and
/// `tools/counters` reads.
///
/// ```
/// use watch::machine::Instruction;
///
/// assert_eq!(Instruction::SetCounter { counter: 0, to: 301 }.to_string(), "set counter 0 to 301");
/// assert_eq!(Instruction::AlertIfZero { signature: 5, counter: 0 }.to_string(), "alert 5 if counter 0 is 0");
/// ```
#[derive(Clone, Copy, Debug, PartialEq, Eq, Hash)]
pub enum Instruction {
    /// Does nothing.
    Nothing,
    /// Sets a bit.
    SetBit(u8),
    /// Clears a bit.
    ClearBit(u8),
    /// Sets a counter to a number.
    SetCounter {
        /// The counter.
        counter: u8,
        /// Its number from now on.
        to: u16,
    },
    /// Turns a counter off.
    TurnOff(u8),
    /// Lowers a counter by one: 0 becomes off, and off stays.
    Lower(u8),
    /// Alerts a signature.
    Alert(u8),
    /// Alerts a signature if a bit is set.
    AlertIfBit {
        /// The signature.
        signature: u8,
        /// The bit.
        bit: u8,
    },
    /// Alerts a signature if a counter is 0.
    AlertIfZero {
        /// The signature.
        signature: u8,
        /// The counter.
        counter: u8,
    },
}

impl Instruction {
    /// Its record in a program.
    #[must_use]
    pub fn to_bytes(self) -> [u8; 4] {
        match self {
            Instruction::Nothing => [0; 4],
            Instruction::SetBit(bit) => [1, bit, 0, 0],
            Instruction::ClearBit(bit) => [2, bit, 0, 0],
            Instruction::SetCounter { counter, to } => [3, counter, to.to_le_bytes()[0], to.to_le_bytes()[1]],
            Instruction::TurnOff(counter) => [4, counter, 0, 0],
            Instruction::Lower(counter) => [5, counter, 0, 0],
            Instruction::Alert(signature) => [6, 0, signature, 0],
            Instruction::AlertIfBit { signature, bit } => [7, bit, signature, 0],
            Instruction::AlertIfZero { signature, counter } => [8, counter, signature, 0],
        }
    }

    /// The instruction of a record; `None` where no program that passes its check has this record.
    #[must_use]
    pub fn from_bytes([kind, which, low, high]: [u8; 4]) -> Option<Instruction> {
        let one = match kind {
            0 => Instruction::Nothing,
            1 => Instruction::SetBit(which),
            2 => Instruction::ClearBit(which),
            3 => Instruction::SetCounter { counter: which, to: u16::from_le_bytes([low, high]) },
            4 => Instruction::TurnOff(which),
            5 => Instruction::Lower(which),
            6 => Instruction::Alert(low),
            7 => Instruction::AlertIfBit { signature: low, bit: which },
            8 => Instruction::AlertIfZero { signature: low, counter: which },
            _ => return None,
        };
        // An unused field that is not zero is lost on the way back.
        Some(one).filter(|one| one.fits() && one.to_bytes() == [kind, which, low, high])
    }

    /// Whether its bit or counter is one.
    fn fits(self) -> bool {
        match self {
            Instruction::Nothing | Instruction::Alert(_) => true,
            Instruction::SetBit(bit) | Instruction::ClearBit(bit) | Instruction::AlertIfBit { bit, .. } => {
                usize::from(bit) < X_BITS
            }
            Instruction::SetCounter { counter, .. }
            | Instruction::TurnOff(counter)
            | Instruction::Lower(counter)
            | Instruction::AlertIfZero { counter, .. } => usize::from(counter) < X_COUNTERS,
        }
    }
}

impl fmt::Display for Instruction {
    fn fmt(&self, f: &mut fmt::Formatter<'_>) -> fmt::Result {
        match self {
            Instruction::Nothing => write!(f, "nothing"),
            Instruction::SetBit(bit) => write!(f, "set bit {bit}"),
            Instruction::ClearBit(bit) => write!(f, "clear bit {bit}"),
            Instruction::SetCounter { counter, to } => write!(f, "set counter {counter} to {to}"),
            Instruction::TurnOff(counter) => write!(f, "turn counter {counter} off"),
            Instruction::Lower(counter) => write!(f, "lower counter {counter}"),
            Instruction::Alert(signature) => write!(f, "alert {signature}"),
            Instruction::AlertIfBit { signature, bit } => write!(f, "alert {signature} if bit {bit} is set"),
            Instruction::AlertIfZero { signature, counter } => {
                write!(f, "alert {signature} if counter {counter} is 0")
            }
        }
    }
}

impl Machine<'_> {
    /// The program of a state, all its records.
    ///
    /// # Panics
    ///
    /// Where there is no such state.
    #[must_use]
    pub fn program(&self, state: usize) -> [Instruction; MOST_INSTRUCTIONS] {
        let records = &self.programs()[X_PROGRAM_SIZE * state..][..X_PROGRAM_SIZE];
        let mut out = [Instruction::Nothing; MOST_INSTRUCTIONS];
        for (one, record) in out.iter_mut().zip(records.chunks_exact(4)) {
            let record = record.try_into().expect("4 bytes");
            *one = Instruction::from_bytes(record).expect("the automaton has passed its check");
        }
        out
    }

    /// Where a byte leads from a state.
    ///
    /// # Panics
    ///
    /// Where there is no such state.
    #[must_use]
    pub fn target(&self, state: usize, byte: u8) -> usize {
        let moves = &self.moves()[X_MOVES_SIZE * state..][..X_MOVES_SIZE];
        let at = 2 * usize::from(byte);
        usize::from(u16::from_le_bytes([moves[at], moves[at + 1]]))
    }
}

/// A state of a [`Builder`].
#[derive(Clone, Copy, Debug, PartialEq, Eq, Hash, PartialOrd, Ord)]
pub struct State(usize);

impl State {
    /// Its number: the first state has 0, and starts.
    #[must_use]
    pub fn number(self) -> usize {
        self.0
    }
}

/// Why states, moves and instructions are no automaton.
#[derive(Clone, Copy, Debug, PartialEq, Eq, Hash)]
#[non_exhaustive]
pub enum BuildError {
    /// There is no state.
    NoState,
    /// There are more than [`X_STATES`] states: so many.
    TooManyStates(usize),
    /// A program has more than [`MOST_INSTRUCTIONS`] instructions: so many.
    TooLong(State, usize),
    /// A program has an instruction with a bit or a counter that there is not.
    NoSuch(State, Instruction),
    /// A state leads to one that the builder does not have, on this byte.
    NoTarget(State, u8),
    /// A state has two moves on a byte: the lowest such one.
    TwoMoves(State, u8),
    /// A state has no move on a byte, and none for the others: the lowest such one.
    NoMove(State, u8),
}

impl fmt::Display for BuildError {
    fn fmt(&self, f: &mut fmt::Formatter<'_>) -> fmt::Result {
        match self {
            BuildError::NoState => write!(f, "there is no state"),
            BuildError::TooManyStates(count) => write!(f, "there are {count} states, and at most {X_STATES} may be"),
            BuildError::TooLong(State(state), count) => {
                write!(
                    f,
                    "the program of state {state} has {count} instructions, and at most {MOST_INSTRUCTIONS} may be"
                )
            }
            BuildError::NoSuch(State(state), one) => {
                write!(f, "state {state} has \"{one}\", and there are {X_BITS} bits and {X_COUNTERS} counters")
            }
            BuildError::NoTarget(State(state), byte) => {
                write!(f, "state {state} leads to no state of this builder on byte {byte:02X}")
            }
            BuildError::TwoMoves(State(state), byte) => write!(f, "state {state} has two moves on byte {byte:02X}"),
            BuildError::NoMove(State(state), byte) => write!(f, "state {state} has no move on byte {byte:02X}"),
        }
    }
}

impl std::error::Error for BuildError {}

/// What has been said of a state.
#[derive(Clone, Debug, Default)]
struct Said {
    program: Vec<Instruction>,
    moves: Vec<(RangeInclusive<u8>, State)>,
    others: Option<State>,
}

impl Said {
    /// Where each byte leads, in a builder of so many states.
    fn targets(&self, state: State, states: usize) -> Result<[usize; BYTE_VALUES], BuildError> {
        let mut targets = [None; BYTE_VALUES];
        let mut twice = None;
        for (bytes, target) in &self.moves {
            for byte in bytes.clone() {
                if targets[usize::from(byte)].replace(*target).is_some() {
                    twice = Some(twice.map_or(byte, |other: u8| other.min(byte)));
                }
            }
        }
        if let Some(byte) = twice {
            return Err(BuildError::TwoMoves(state, byte));
        }
        let mut out = [0; BYTE_VALUES];
        for byte in 0..=u8::MAX {
            let State(target) = targets[usize::from(byte)].or(self.others).ok_or(BuildError::NoMove(state, byte))?;
            if target >= states {
                return Err(BuildError::NoTarget(state, byte));
            }
            out[usize::from(byte)] = target;
        }
        Ok(out)
    }
}

/// Makes the two lists of an automaton with bits and counters: states with their programs, then
/// moves by ranges of bytes.
///
/// ```
/// use watch::machine::{Builder, Flow, Instruction};
///
/// // Signature 9 at the third byte after each "<".
/// let mut builder = Builder::new();
/// let count = builder.state(&[Instruction::Lower(0), Instruction::AlertIfZero { signature: 9, counter: 0 }]);
/// let begin = builder.state(&[Instruction::SetCounter { counter: 0, to: 3 }]);
/// for state in [count, begin] {
///     builder.on(state, b'<'..=b'<', begin);
///     builder.otherwise(state, count);
/// }
/// let lists = builder.build()?;
/// let machine = lists.machine();
///
/// let mut told = Vec::new();
/// let mut flow = Flow::open(&machine, &mut []).unwrap().flow;
/// flow.feed_all(&machine, 0, b"ab<cdefg", |pair| told.push(pair.to_string())).unwrap();
/// assert_eq!(told, ["9 6"]);
/// # Ok::<(), watch::machine::BuildError>(())
/// ```
#[derive(Clone, Debug, Default)]
pub struct Builder {
    states: Vec<Said>,
}

impl Builder {
    /// One without a state.
    #[must_use]
    pub fn new() -> Builder {
        Builder::default()
    }

    /// Puts a state to the others, with the program that runs after each move to it. The first one
    /// starts, and its program runs at the opening too.
    pub fn state(&mut self, program: &[Instruction]) -> State {
        self.states.push(Said { program: program.to_vec(), ..Said::default() });
        State(self.states.len() - 1)
    }

    /// Leads from a state to another on each byte of a range.
    ///
    /// # Panics
    ///
    /// Where the state is of another builder, which has more.
    pub fn on(&mut self, from: State, bytes: RangeInclusive<u8>, to: State) -> &mut Builder {
        self.states[from.0].moves.push((bytes, to));
        self
    }

    /// Leads from a state to another on every byte that has no move of its own. Said again, the
    /// last one counts.
    ///
    /// # Panics
    ///
    /// Where the state is of another builder, which has more.
    pub fn otherwise(&mut self, from: State, to: State) -> &mut Builder {
        self.states[from.0].others = Some(to);
        self
    }

    /// The two lists. What it makes passes the check of [`Machine`].
    ///
    /// # Errors
    ///
    /// The first thing that is wrong, state by state.
    pub fn build(&self) -> Result<MachineLists, BuildError> {
        if self.states.is_empty() {
            return Err(BuildError::NoState);
        }
        if self.states.len() > X_STATES {
            return Err(BuildError::TooManyStates(self.states.len()));
        }
        let (mut moves, mut programs) = (Vec::new(), Vec::new());
        for (number, said) in self.states.iter().enumerate() {
            let state = State(number);
            if said.program.len() > MOST_INSTRUCTIONS {
                return Err(BuildError::TooLong(state, said.program.len()));
            }
            if let Some(one) = said.program.iter().find(|one| !one.fits()) {
                return Err(BuildError::NoSuch(state, *one));
            }
            for target in said.targets(state, self.states.len())? {
                moves.extend((target as u16).to_le_bytes());
            }
            programs.extend(said.program.iter().flat_map(|one| one.to_bytes()));
            programs.resize(X_PROGRAM_SIZE * (number + 1), 0);
        }
        Ok(MachineLists { moves, programs })
    }
}

/// The two lists that a [`Builder`] made, in memory of their own.
#[derive(Clone, Debug, PartialEq, Eq)]
pub struct MachineLists {
    /// For each state 256 targets of two bytes.
    pub moves: Vec<u8>,
    /// For each state 8 records of four bytes.
    pub programs: Vec<u8>,
}

impl MachineLists {
    /// The automaton.
    ///
    /// # Panics
    ///
    /// Where the lists have been changed so that the check refuses them, as [`MachineLists::check`]
    /// says; or where the archive has another version of the face than this crate is written for.
    #[must_use]
    pub fn machine(&self) -> Machine<'_> {
        self.check().expect("what a builder makes passes")
    }

    /// The automaton, once the lists pass.
    ///
    /// # Errors
    ///
    /// [`Refusal::Machine`] (24).
    pub fn check(&self) -> Result<Machine<'_>, Refusal> {
        Machine::check(&self.moves, &self.programs)
    }
}
