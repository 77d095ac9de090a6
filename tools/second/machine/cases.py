"""The cases for the automaton with bits and counters, in groups."""

from second.machine import model as machines
from second.machine.examples import ALERTING, COUNTING, ONE, TWO, program
from second.tape import put

LAST = machines.MOST_OFFSET


# Machines and records

def moves(states, lead):
    """The moves of so many states, where lead(state, byte) is the target."""
    return b"".join(lead(state, byte).to_bytes(2, "little") for state in range(states) for byte in range(256))


def instruction(dice, kind=None):
    """A good instruction; a few bits, counters, numbers and signatures are met more often, so that programs work together."""
    if kind is None:
        kind = dice.below(9)
    which, number = 0, 0
    if kind in machines.ON_BITS:
        which = dice.pick([0, 1, 31, 32, 63, dice.below(64)])
    if kind in machines.ON_COUNTERS:
        which = dice.pick([0, 1, 15, dice.below(16)])
    if kind == machines.COUNT:
        number = dice.pick([0, 1, 2, 3, 255, 256, 65535, dice.below(65536)])
    if kind in machines.ALERTS:
        number = dice.pick([0, 1, 63, 64, 127, 128, 192, 255, dice.below(256)])
    return (kind, which, number)


def random_program(dice, most=8):
    return program(*[instruction(dice) if dice.chance(70) else (0, 0, 0) for _ in range(dice.between(0, most))])


class Last:
    """The moves made last: they serve several machines, so that the stream stays short."""
    moves = b""


def machine(dice, states=None):
    if states is None and Last.moves and dice.chance(80):
        return Last.moves, b"".join(random_program(dice) for _ in range(len(Last.moves) // 512))
    states = states or dice.pick([1, 1, 2, 2, 3, 4, 7])
    salt = dice.below(1000)
    kind = dice.below(3)
    if kind == 0:
        lead = lambda state, byte: (state + byte + salt) % states
    elif kind == 1:
        lead = lambda state, byte: byte * 7 % states if byte < 128 else state
    else:
        lead = lambda state, byte: (state * 5 + byte // 16 + salt) % states
    Last.moves = moves(states, lead)
    return Last.moves, b"".join(random_program(dice) for _ in range(states))


def record(dice, states, offset=None):
    """A record that rule 4 takes."""
    counters = {i: dice.pick([0, 1, 2, 65535, dice.below(65536)]) for i in range(16) if dice.chance(60)}
    config = machines.Config(dice.below(states), frozenset(b for b in range(64) if dice.chance(30)), counters)
    return machines.pack(config, dice.below(2 ** 20) if offset is None else offset)


def states_of(tape):
    return len(tape.moves) // 512


# Groups

def worked(tape, dice):
    for lists, piece in (((TWO, COUNTING), b"...."), ((ONE, ALERTING), b"zz")):
        tape.load_machine(*lists)
        tape.check()
        for words in range(8):
            tape.load_record(bytes([7] * 80))
            tape.open(words)
        tape.load_record(bytes(80))
        tape.open(5)
        for words in range(8):
            before = tape.record
            tape.feed(machines.number(before[4:8]), words, piece)
    tape.load_machine(ONE, program((4, 0, 1)))
    tape.load_record(bytes(79))
    tape.check()
    tape.open(0)
    tape.feed(0, 0, b"")


def instructions(tape, dice):
    """Each kind with each field at its limit, one past it, and far past it; every other kind."""
    fields = [0, 1, 15, 16, 63, 64, 65, 127, 128, 255]
    numbers = [0, 1, 255, 256, 257, 511, 32767, 65280, 65535]
    for kind in list(range(12)) + [16, 64, 127, 128, 254, 255]:
        for which in fields:
            for number in numbers:
                at = dice.below(8)
                data = put(bytes(32), 4 * at, bytes([kind, which]) + number.to_bytes(2, "little"))
                tape.load_machine(ONE, data)
                tape.check()


def faulty_records(tape, dice):
    """One bad field in a program of a machine that is otherwise good, in states that are reached and in others."""
    for _ in range(600):
        data = machine(dice)
        at = dice.below(len(data[1]) // 4)
        kind, which, number = instruction(dice)
        fault = dice.below(5)
        if fault == 0:
            kind = dice.between(9, 255)
        elif fault == 1 and kind in machines.ON_BITS | machines.ON_COUNTERS:
            which = dice.between(64 if kind in machines.ON_BITS else 16, 255)
        elif fault == 2 and kind in machines.ALERTS:
            number = dice.between(256, 65535)
        elif fault == 3 and kind not in machines.ALERTS | {machines.COUNT}:
            number = dice.between(1, 65535)
        elif fault == 4 and kind in (0, 6):
            which = dice.between(1, 255)
        tape.load_machine(data[0], put(data[1], 4 * at, bytes([kind, which]) + number.to_bytes(2, "little")))
        tape.check()
        if dice.chance(25):
            tape.load_record(dice.pick([bytes(80), bytes(79), record(dice, states_of(tape))]))
            tape.open(dice.below(8))
            tape.feed(dice.below(2), dice.below(8), dice.bytes(dice.below(4)))


def targets(tape, dice):
    """A target that is the last state, one past it, or far past it, at any place."""
    for _ in range(150):
        states = dice.between(1, 3)
        data = (bytes(512 * states), bytes(32 * states))
        place = dice.pick([0, 255, 256 * states - 1, dice.below(256 * states)])
        for target in (states - 1, states, states + 256, 65535):
            tape.load_machine(put(data[0], 2 * place, target.to_bytes(2, "little")), data[1])
            tape.check()


def lengths(tape, dice):
    for extra in (-512, -33, -32, -31, -2, -1, 0, 1, 2, 31, 32, 33, 511, 512):
        for _ in range(6):
            data = machine(dice)
            for which in range(2):
                lists = list(data)
                lists[which] = lists[which][:extra] if extra < 0 else lists[which] + bytes(extra)
                tape.load_machine(*lists)
                tape.check()
                tape.load_record(dice.pick([bytes(80), bytes(81)]))
                tape.open(dice.below(6))
                tape.feed(0, dice.below(6), b"ab")
    for lists in ((b"", b""), (b"", bytes(32)), (bytes(512), b"")):
        for _ in range(3):
            tape.load_machine(*lists)
            tape.check()
            tape.load_record(bytes(80))
            tape.open(4)
            tape.feed(0, 4, b"a")


def most_states(tape, dice):
    """1,024 states pass, one more does not; the last one is met."""
    for states in (1023, 1024, 1025):
        last = states - 1
        lists = (put(bytes(512 * states), 2 * 97, last.to_bytes(2, "little")),
                 put(bytes(32 * states), 32 * last, program((6, 0, 255), (6, 0, last % 256))))
        tape.load_machine(*lists)
        tape.check()
        tape.load_record(bytes(80))
        tape.open(4)
        tape.feed(0, 4, b"ab")


def openings(tape, dice):
    """Records of any length and content; words around the pairs that are due."""
    for _ in range(500):
        data = machine(dice)
        first = program(*[dice.pick([(6, 0, dice.below(256)), instruction(dice)]) for _ in range(dice.between(0, 8))])
        tape.load_machine(data[0], first + data[1][32:])
        due = machines.open_flow(*data[:1], tape.programs, bytes(80), [0] * 600).pairs
        words = max(0, 2 * due + dice.pick([-2, -1, -1, 0, 0, 1, 2, 5]))
        size = 80 if dice.chance(75) else dice.pick([0, 1, 76, 79, 81, 144])
        tape.load_record(dice.bytes(size))
        tape.open(words)


def flows(tape, dice):
    """Flows from opening on, with pauses, wrong starts, damaged records and the last offsets."""
    for _ in range(450):
        tape.load_machine(*machine(dice))
        if dice.chance(50):
            tape.load_record(bytes(80))
            tape.open(600)
        else:
            tape.load_record(record(dice, states_of(tape), dice.pick([0, 1, 255, 65535, LAST - 3, LAST - 1, LAST, None])))
        for _ in range(dice.between(1, 5)):
            offset = machines.number(tape.record[4:8])
            start = offset if dice.chance(80) else dice.pick([offset + 1, 0, offset + 2 ** 32, 2 ** 64 - 1, max(0, offset - 1)])
            piece = dice.bytes(dice.pick([0, 1, 2, 5, 9, 30]))
            words = dice.pick([0, 1, 2, 3, 4, 6, 9, 16, 600])
            tape.feed(start, words, piece)


def damaged(tape, dice):
    """Records with one bad field: the state, a reserved byte, a counter; the limits on both sides; any bits and offset pass."""
    for _ in range(130):
        tape.load_machine(*machine(dice))
        states = states_of(tape)
        good = record(dice, states)
        start = machines.number(good[4:8])
        i = dice.below(16)
        for bad in (put(good, 0, (states - 1).to_bytes(2, "little")), put(good, 0, states.to_bytes(2, "little")),
                    put(good, 0, (states + 255).to_bytes(2, "little")), put(good, 2, bytes([dice.between(1, 255)])),
                    put(good, 3, bytes([dice.between(1, 255)])), put(good, 16 + 4 * i, (65535).to_bytes(4, "little")),
                    put(good, 16 + 4 * i, (65536).to_bytes(4, "little")), put(good, 16 + 4 * i, (65537).to_bytes(4, "little")),
                    put(good, 16 + 4 * i, dice.pick([65792, 131072, 16777216, 4294967295]).to_bytes(4, "little")),
                    put(good, 8, dice.bytes(8)), good[:79], good + bytes(1)):
            tape.load_record(bad)
            tape.feed(start + dice.pick([0, 0, 0, 1]), dice.pick([4, 600]), dice.bytes(dice.below(4)))


def last_offsets(tape, dice):
    """6: the piece ends past the last offset, and one byte less."""
    for _ in range(60):
        tape.load_machine(*machine(dice))
        left = dice.below(6)
        for size in (left, left + 1, left + 2):
            tape.load_record(record(dice, states_of(tape), LAST - left))
            tape.feed(LAST - left, dice.pick([0, 4, 600]), dice.bytes(size))


def counting(tape, dice):
    """A counter set to n and lowered at each byte: it is 0 once, then off; set again before and after."""
    for n in (0, 1, 2, 3, 5, 255, 256, 300, 65535):
        for _ in range(6):
            counter = dice.below(16)
            programs = (program((3, counter, n)) + program((5, counter, 0), (8, counter, 9), (8, (counter + 1) % 16, 8))
                        + program((4, counter, 0), (8, counter, 7)))
            tape.load_machine(moves(3, lambda state, byte: 0 if byte == 10 else 2 if byte == 13 else 1), programs)
            tape.load_record(bytes(80))
            tape.open(8)
            for _ in range(3):
                piece = bytes(dice.pick([46, 46, 46, 46, 10, 13]) for _ in range(dice.pick([3, n % 400, n % 400 + 1, n % 400 + 2])))
                tape.feed(machines.number(tape.record[4:8]), 40, piece)


def long_pieces(tape, dice):
    for _ in range(30):
        tape.load_machine(*machine(dice, dice.pick([1, 2, 3, 16])))
        tape.load_record(bytes(80))
        tape.open(600)
        tape.feed(machines.number(tape.record[4:8]), dice.pick([0, 2, 40, 1200]), dice.bytes(dice.pick([256, 1024, 4096])))


GROUPS = [worked, instructions, faulty_records, targets, lengths, most_states, openings, flows, damaged, last_offsets, counting,
          long_pieces]
