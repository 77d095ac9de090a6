//! Automata with bits and counters that are built, and certificates that are found: the builder
//! beside the bytes of the example and beside a model of its own, instructions beside the check,
//! and the search beside the certificates of the outside vectors and inputs that show a difference.

mod common;

use common::{dice, stream};

use dice::Dice;
use stream::{read, Reader};
use watch::machine::{BuildError, Builder, Certificate, Instruction, Machine, NoCertificate, State, MOST_INSTRUCTIONS};
use watch::{List, Pair, NOTE_SIZE, X_BITS, X_COUNTERS, X_STATES};

const WORD: &[u8] = b"milk ";

/// The automaton of `examples/long-line`.
fn long_line() -> Builder {
    let mut builder = Builder::new();
    let start = builder.state(&[Instruction::TurnOff(0)]);
    let mut fronts = vec![start];
    fronts.extend((1..WORD.len()).map(|_| builder.state(&[])));
    fronts.push(builder.state(&[Instruction::SetCounter { counter: 0, to: 301 }]));
    let inside = builder.state(&[Instruction::Lower(0), Instruction::AlertIfZero { signature: 5, counter: 0 }]);
    for (read, byte) in WORD.iter().enumerate() {
        builder.on(fronts[read], *byte..=*byte, fronts[read + 1]).otherwise(fronts[read], start);
        if read > 0 {
            builder.on(fronts[read], b'm'..=b'm', fronts[1]);
        }
    }
    for state in [fronts[WORD.len()], inside] {
        builder.on(state, b'\n'..=b'\n', start).otherwise(state, inside);
    }
    builder
}

#[test]
fn the_example_is_built() {
    let lists = long_line().build().unwrap();
    assert_eq!(lists.moves, read("examples/long-line/moves.bin"));
    assert_eq!(lists.programs, read("examples/long-line/programs.bin"));
}

/// An instruction by a kind and its fields.
fn instruction(kind: usize, which: u8, number: u16) -> Instruction {
    let signature = number as u8;
    match kind {
        0 => Instruction::Nothing,
        1 => Instruction::SetBit(which),
        2 => Instruction::ClearBit(which),
        3 => Instruction::SetCounter { counter: which, to: number },
        4 => Instruction::TurnOff(which),
        5 => Instruction::Lower(which),
        6 => Instruction::Alert(signature),
        7 => Instruction::AlertIfBit { signature, bit: which },
        _ => Instruction::AlertIfZero { signature, counter: which },
    }
}

#[test]
fn any_automaton_is_built() {
    let mut dice = Dice(71);
    for _ in 0..60 {
        let count = dice.pick(&[1, 2, 3, 7, 40]);
        let mut builder = Builder::new();
        let programs: Vec<Vec<Instruction>> = (0..count)
            .map(|_| {
                let length = dice.from(0, MOST_INSTRUCTIONS);
                (0..length).map(|_| instruction(dice.below(9), dice.below(16) as u8, dice.next() as u16)).collect()
            })
            .collect();
        let states: Vec<State> = programs.iter().map(|program| builder.state(program)).collect();
        let mut leads = Vec::new();
        for state in &states {
            let rest = dice.pick(&states);
            builder.otherwise(*state, rest);
            let mut lead = [rest.number(); 256];
            let mut low = dice.below(300);
            while low < 256 {
                let (high, target) = (dice.from(low, 255.min(low + 40)), dice.pick(&states));
                builder.on(*state, low as u8..=high as u8, target);
                lead[low..=high].fill(target.number());
                low = high + dice.from(1, 80);
            }
            leads.push(lead);
        }
        let lists = builder.build().unwrap();
        let machine = lists.machine();
        assert_eq!(machine.states(), count);
        for state in 0..count {
            assert!((0..=255).all(|byte| machine.target(state, byte) == leads[state][usize::from(byte)]));
            let program = machine.program(state);
            assert_eq!(program[..programs[state].len()], programs[state]);
            assert!(program[programs[state].len()..].iter().all(|one| *one == Instruction::Nothing));
        }
    }
}

#[test]
fn instructions_are_those_that_pass() {
    for kind in 0..11 {
        for which in [0, 1, 15, 16, 63, 64, 255] {
            for (low, high) in [(0, 0), (1, 0), (255, 0), (0, 1), (255, 255)] {
                let record = [kind, which, low, high];
                let mut programs = [0; 32];
                programs[28..].copy_from_slice(&record);
                let passes = Machine::check(&[0; 512], &programs).is_ok();
                let one = Instruction::from_bytes(record);
                assert_eq!(one.is_some(), passes, "{record:?}");
                assert!(one.map_or(true, |one| one.to_bytes() == record));
            }
        }
    }
}

#[test]
fn what_is_no_automaton() {
    let built = |make: &dyn Fn(&mut Builder, State)| {
        let mut builder = Builder::new();
        let state = builder.state(&[]);
        make(&mut builder, state);
        (state, builder.build().err())
    };
    assert_eq!(Builder::new().build(), Err(BuildError::NoState));
    let (state, error) = built(&|_, _| ());
    assert_eq!(error, Some(BuildError::NoMove(state, 0)));
    let (state, error) = built(&|builder, state| {
        builder.on(state, 0..=9, state).on(state, 11..=255, state);
    });
    assert_eq!(error, Some(BuildError::NoMove(state, 10)));
    let (state, error) = built(&|builder, state| {
        builder.on(state, 20..=29, state).on(state, 25..=40, state).on(state, 21..=21, state).otherwise(state, state);
    });
    assert_eq!(error, Some(BuildError::TwoMoves(state, 21)));
    let (_, error) = built(&|builder, state| {
        builder.otherwise(state, state);
    });
    assert_eq!(error, None);
    let mut other = Builder::new();
    let foreign = [other.state(&[]), other.state(&[])][1];
    let (state, error) = built(&|builder, state| {
        builder.on(state, 7..=7, foreign).otherwise(state, state);
    });
    assert_eq!(error, Some(BuildError::NoTarget(state, 7)));
    assert_eq!(error.unwrap().to_string(), "state 0 leads to no state of this builder on byte 07");
}

#[test]
fn limits_of_programs_and_states() {
    let of = |program: &[Instruction]| {
        let mut builder = Builder::new();
        let state = builder.state(program);
        builder.otherwise(state, state);
        (state, builder.build().err())
    };
    assert_eq!(of(&[Instruction::Nothing; MOST_INSTRUCTIONS]).1, None);
    let (state, error) = of(&[Instruction::Nothing; MOST_INSTRUCTIONS + 1]);
    assert_eq!(error, Some(BuildError::TooLong(state, MOST_INSTRUCTIONS + 1)));
    for kind in 1..9 {
        let most = if [1, 2, 7].contains(&kind) { X_BITS } else { X_COUNTERS } as u8;
        assert_eq!(of(&[instruction(kind, most - 1, 0)]).1, None);
        let (state, error) = of(&[instruction(kind, most, 0)]);
        let one = instruction(kind, most, 0);
        assert_eq!(error, (kind != 6).then_some(BuildError::NoSuch(state, one)), "{one}");
    }
    let mut builder = Builder::new();
    for _ in 0..X_STATES {
        let state = builder.state(&[]);
        builder.otherwise(state, state);
    }
    assert_eq!(builder.build().unwrap().machine().states(), X_STATES);
    builder.state(&[]);
    assert_eq!(builder.build(), Err(BuildError::TooManyStates(X_STATES + 1)));
}

fn sorted(certificate: &[u8]) -> Vec<&[u8]> {
    let mut records: Vec<&[u8]> = certificate.chunks(NOTE_SIZE).collect();
    records.sort_unstable();
    records
}

#[test]
fn the_example_is_explored() {
    let (rules, right) = (read("examples/long-line/rules.bin"), read("examples/long-line/certificate.bin"));
    let (list, lists) = (List::check(&rules).unwrap(), long_line().build().unwrap());
    let found = Certificate::explore(&list, &lists.machine()).unwrap();
    assert_eq!((found.records(), found.certificate().records()), (308, 308));
    assert_eq!(sorted(found.as_bytes()), sorted(&right));
    assert_eq!(found.clone().into_bytes(), found.as_bytes());
}

/// The example with another number or another order in its programs.
fn changed(from: &[u8], to: &[u8]) -> Vec<u8> {
    let mut programs = long_line().build().unwrap().programs;
    let at = programs.windows(from.len()).position(|front| front == from).expect("it is there");
    programs[at..at + from.len()].copy_from_slice(to);
    programs
}

#[test]
fn no_certificate() {
    let (rules, moves) = (read("examples/long-line/rules.bin"), read("examples/long-line/moves.bin"));
    let list = List::check(&rules).unwrap();
    let later = changed(&[3, 0, 45, 1], &[3, 0, 46, 1]);
    let error = Certificate::explore(&list, &Machine::check(&moves, &later).unwrap()).unwrap_err();
    match error {
        NoCertificate::OtherPairs { input, listed, counted } => {
            assert_eq!((input.len(), &input[..5]), (306, WORD));
            assert_eq!((listed, counted), (vec![Pair { signature: 5, offset: 306 }], vec![]));
        }
        other => panic!("{other}"),
    }
    // Alerts first and lowers then: off both where it tells and behind it, for which the list has
    // two states.
    let mut first = changed(&[5, 0, 0, 0, 8, 0, 5, 0], &[8, 0, 5, 0, 5, 0, 0, 0]);
    let at = first.windows(4).position(|front| front == [3, 0, 45, 1]).unwrap();
    first[at + 2] = 44;
    let error = Certificate::explore(&list, &Machine::check(&moves, &first).unwrap()).unwrap_err();
    assert!(
        matches!(&error, NoCertificate::TwoSets { first, second } if (first.len(), second.len()) == (306, 307)),
        "{error}"
    );
}

#[test]
fn too_many() {
    // A list of one quiet state, and an automaton that counts.
    let rules = *b"\x01\x00\xFF\0\0\0\0\0\x02\0\0\0\0\0\0\0";
    let list = List::check(&rules).unwrap();
    let explored = |from: u16| {
        let mut builder = Builder::new();
        let first = builder.state(&[Instruction::SetCounter { counter: 3, to: from }]);
        let then = builder.state(&[Instruction::Lower(3)]);
        builder.otherwise(first, then).otherwise(then, then);
        let lists = builder.build().unwrap();
        let found = Certificate::explore(&list, &lists.machine());
        found.map(|found| found.records())
    };
    assert_eq!(explored(4094), Ok(4096));
    assert_eq!(explored(4095), Err(NoCertificate::TooMany { configurations: 4097, sets: 1, all: true }));
    assert_eq!(explored(65534), Err(NoCertificate::TooMany { configurations: 65536, sets: 1, all: true }));
    assert_eq!(explored(65535), Err(NoCertificate::TooMany { configurations: 65537, sets: 1, all: false }));
}

/// What is found for the first accepted certificates of the outside vectors is their records, but
/// for those that nothing reaches.
#[test]
fn vectors() {
    let stdin = read("crates/machine_certificate_replay/stdin");
    let (mut reader, mut found) = (Reader(&stdin), 0);
    let [mut rules, mut moves, mut programs, mut noted]: [Box<[u8]>; 4] = Default::default();
    while !reader.0.is_empty() && found < 120 {
        match reader.take(1)[0] {
            b'L' => rules = reader.block(),
            b'M' => moves = reader.block(),
            b'P' => programs = reader.block(),
            b'Z' => noted = reader.block(),
            b'E' => {
                let (at, bytes) = (reader.number(4) as usize, reader.block());
                noted[at..at + bytes.len()].copy_from_slice(&bytes);
            }
            b'N' => noted = noted[..reader.number(4) as usize].into(),
            _ => {
                if let (Ok(list), Ok(machine)) = (List::check(&rules), Machine::check(&moves, &programs)) {
                    if Certificate::check(&list, &machine, &noted).is_ok() {
                        let records = sorted(&noted);
                        let explored = Certificate::explore(&list, &machine).unwrap();
                        assert!(sorted(explored.as_bytes()).iter().all(|record| records.contains(record)));
                        found += 1;
                    }
                }
            }
        }
    }
    assert_eq!(found, 120);
}
