"""The rules of the automaton with bits and counters, over sets of numbers and dicts.

A configuration is a state, the set of the bits that are set, and a dict of the counters that are on. Bytes are packed and unpacked at
the edges of this file only. Every function takes any bytes and gives the answer that the rules fix for them.
"""

import struct
from collections import namedtuple
from functools import lru_cache

from second.sizes import (
    X_BITS, X_COUNTERS, X_FLOW_SIZE, X_MOVES_SIZE, X_OFF, X_PROGRAM_SIZE, X_STATES,
)

# The sizes and limits of the rules.
SIGNATURES = 256
MOST_NUMBER = 65535  # that a counter is set to
RECORDS = 8  # in a program
RECORD_SIZE = 4
MOST_OFFSET = 4294967295

NOTHING, SET, CLEAR, COUNT, STOP, LOWER, ALERT, ALERT_BIT, ALERT_ZERO = range(9)
ON_BITS = {SET, CLEAR, ALERT_BIT}
ON_COUNTERS = {COUNT, STOP, LOWER, ALERT_ZERO}
ALERTS = {ALERT, ALERT_BIT, ALERT_ZERO}

Instruction = namedtuple("Instruction", "kind which number")
Config = namedtuple("Config", "state bits counters")  # a number, a frozenset, a dict of those that are on
Answer = namedtuple("Answer", "refusal consumed pairs all words record")
Opened = namedtuple("Opened", "refusal pairs words record")


def number(data):
    return int.from_bytes(data, "little")


# The two lists

def instructions(programs, state):
    """The program of a state, record by record."""
    begin = X_PROGRAM_SIZE * state
    return [Instruction(programs[at], programs[at + 1], number(programs[at + 2:at + 4]))
            for at in range(begin, begin + X_PROGRAM_SIZE, RECORD_SIZE)]


def target(moves, state, byte):
    at = X_MOVES_SIZE * state + 2 * byte
    return number(moves[at:at + 2])


def good_instruction(one):
    if one.kind not in range(9):
        return False
    if one.kind in ON_BITS:
        if one.which >= X_BITS:
            return False
    elif one.kind in ON_COUNTERS:
        if one.which >= X_COUNTERS:
            return False
    elif one.which != 0:
        return False
    if one.kind in ALERTS:
        return one.number < SIGNATURES
    return one.kind == COUNT or one.number == 0


@lru_cache(maxsize=64)
def refused(moves, programs):
    """24, or 0."""
    states, rest = divmod(len(moves), X_MOVES_SIZE)
    if rest != 0 or not 1 <= states <= X_STATES or len(programs) != states * X_PROGRAM_SIZE:
        return 24
    targets = struct.unpack("<%dH" % (256 * states), moves)
    if any(one >= states for one in targets):
        return 24
    for state in range(states):
        if not all(good_instruction(one) for one in instructions(programs, state)):
            return 24
    return 0


# The automaton

def run(program, config):
    """A program on a configuration that stands in its state: the configuration after it, and the signatures alerted."""
    bits, counters, alerted = set(config.bits), dict(config.counters), set()
    for one in program:
        if one.kind == SET:
            bits.add(one.which)
        elif one.kind == CLEAR:
            bits.discard(one.which)
        elif one.kind == COUNT:
            counters[one.which] = one.number
        elif one.kind == STOP:
            counters.pop(one.which, None)
        elif one.kind == LOWER and one.which in counters:
            if counters[one.which] == 0:
                del counters[one.which]
            else:
                counters[one.which] -= 1
        elif one.kind == ALERT:
            alerted.add(one.number)
        elif one.kind == ALERT_BIT and one.which in bits:
            alerted.add(one.number)
        elif one.kind == ALERT_ZERO and counters.get(one.which) == 0:
            alerted.add(one.number)
    return Config(config.state, frozenset(bits), counters), alerted


def step(moves, programs, config, byte):
    state = target(moves, config.state, byte)
    return run(instructions(programs, state), Config(state, config.bits, config.counters))


# The flow record

def pack(config, offset):
    bits = sum(2 ** bit for bit in config.bits)
    counters = [config.counters.get(i, X_OFF) for i in range(X_COUNTERS)]
    return (config.state.to_bytes(2, "little") + bytes(2) + offset.to_bytes(4, "little") + bits.to_bytes(8, "little")
            + b"".join(count.to_bytes(4, "little") for count in counters))


def unpack(record):
    """Configuration and offset of a record that rule 4 takes."""
    bits = number(record[8:16])
    counters = [number(record[16 + 4 * i:20 + 4 * i]) for i in range(X_COUNTERS)]
    return (Config(number(record[0:2]), frozenset(bit for bit in range(X_BITS) if bits // 2 ** bit % 2 == 1),
                   {i: count for i, count in enumerate(counters) if count != X_OFF}),
            number(record[4:8]))


def bad_record(moves, record):
    if len(record) != X_FLOW_SIZE or number(record[0:2]) >= len(moves) // X_MOVES_SIZE or record[2:4] != bytes(2):
        return True
    return any(number(record[at:at + 4]) > X_OFF for at in range(16, X_FLOW_SIZE, 4))


# The calls

def told(alerted, offset):
    return [word for signature in sorted(alerted) for word in (signature, offset)]


def open_flow(moves, programs, record, words):
    refusal = refused(moves, programs)
    if refusal == 0 and len(record) != X_FLOW_SIZE:
        refusal = 4
    if refusal == 0:
        config, alerted = run(instructions(programs, 0), Config(0, frozenset(), {}))
        if len(alerted) > len(words) // 2:
            refusal = 15
    if refusal != 0:
        return Opened(refusal, 0, words, record)
    pairs = told(alerted, 0)
    return Opened(0, len(alerted), pairs + words[len(pairs):], pack(config, 0))


def feed_refusal(moves, programs, record, start, piece):
    if refused(moves, programs) != 0:
        return 24
    if bad_record(moves, record):
        return 4
    offset = number(record[4:8])
    if start != offset:
        return 5
    return 6 if offset + len(piece) > MOST_OFFSET else 0


def feed(moves, programs, record, start, words, piece):
    refusal = feed_refusal(moves, programs, record, start, piece)
    if refusal != 0:
        return Answer(refusal, 0, 0, False, words, record)
    config, offset = unpack(record)
    out, room, consumed = [], len(words) // 2, 0
    for byte in piece:
        after, alerted = step(moves, programs, config, byte)
        if len(alerted) > room:
            break
        consumed += 1
        room -= len(alerted)
        out += told(alerted, offset + consumed)
        config = after
    return Answer(0, consumed, len(out) // 2, consumed == len(piece), out + words[len(out):],
                  pack(config, offset + consumed))
