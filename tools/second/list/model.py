"""The rules of the signature list, of opening and of the plain feed, over named tuples, sets of numbers
and dicts.

A set of states is a frozenset of numbers, a frontier likewise. Bytes are packed and unpacked at the
edges of this file only. Every function takes any bytes and gives the answer that the rules fix for
them.
"""

from collections import namedtuple
from functools import lru_cache

from second.sizes import (
    FLOW_SIZE, MOST_LIST, MOST_OFFSET, OFFSET_AT, RECORD_SIZE, RESERVED_AT, ROWS_AT, SET_SIZE,
    SIGNATURES, STATES,
)

Accept = namedtuple("Accept", "state signature")
Flow = namedtuple("Flow", "frontier offset rows")
Answer = namedtuple("Answer", "refusal consumed pairs all words record")
Opened = namedtuple("Opened", "refusal pairs words record")


# Numbers and sets as bytes

def number(data):
    return int.from_bytes(data, "little")


def cut(data, size):
    """The records of one fixed size that follow one another in data."""
    return [data[at:at + size] for at in range(0, len(data), size)]


@lru_cache(maxsize=20000)
def unpack_set(data):
    return frozenset(8 * at + bit for at, byte in enumerate(data) if byte != 0
                     for bit in range(8) if byte // 2 ** bit % 2 == 1)


@lru_cache(maxsize=20000)
def pack_set(members):
    data = [0] * SET_SIZE
    for state in members:
        data[state // 8] += 2 ** (state % 8)
    return bytes(data)


def unpack_flow(record):
    return Flow(unpack_set(record[:SET_SIZE]), number(record[OFFSET_AT:RESERVED_AT]),
                number(record[ROWS_AT:FLOW_SIZE]))


def pack_flow(flow):
    return (pack_set(flow.frontier) + flow.offset.to_bytes(4, "little")
            + bytes(4) + flow.rows.to_bytes(8, "little"))


# The signature list

def exchanged(byte):
    """The byte with ASCII letter case exchanged."""
    return bytes([byte]).swapcase()[0]


class Edge(namedtuple("Edge", "low high source target either")):
    """An edge, and whether it is for either case."""

    def takes(self, byte):
        return (self.low <= byte <= self.high
                or self.either and self.low <= exchanged(byte) <= self.high)


def sound(record):
    """Whether one record of a list passes by itself."""
    kind, middle, last = record[0], number(record[4:6]), number(record[6:8])
    if kind == 1:
        return (record[1] <= record[2] and record[3] <= 1
                and middle < STATES and last < STATES)
    if kind == 2:
        return set(record[1:6]) == {0} and last < STATES
    if kind == 3:
        return set(record[1:4]) == {0} and middle < STATES and last < SIGNATURES
    return False


@lru_cache(maxsize=64)
def list_refusal(data):
    if len(data) == 0 or len(data) > MOST_LIST or len(data) % RECORD_SIZE != 0:
        return 1
    records = cut(data, RECORD_SIZE)
    if not all(sound(record) for record in records):
        return 2
    if 2 not in {record[0] for record in records}:
        return 3
    return 0


class Automaton:
    """A good list, read into sets. Steps already worked out are kept."""

    def __init__(self, data):
        records = cut(data, RECORD_SIZE)
        self.edges = frozenset(
            Edge(r[1], r[2], number(r[4:6]), number(r[6:8]), r[3] == 1)
            for r in records if r[0] == 1)
        self.starts = frozenset(number(r[6:8]) for r in records if r[0] == 2)
        self.accepts = frozenset(
            Accept(number(r[4:6]), number(r[6:8])) for r in records if r[0] == 3)
        self.named = frozenset().union(
            self.starts, (e.source for e in self.edges), (e.target for e in self.edges),
            (a.state for a in self.accepts))
        self.leaving = {}  # a state's edges
        for edge in self.edges:
            self.leaving.setdefault(edge.source, []).append(edge)
        self.steps = {}

    def step(self, frontier, byte):
        key = (frontier, byte)
        if key not in self.steps:
            self.steps[key] = frozenset(
                e.target for state in frontier for e in self.leaving.get(state, ()) if e.takes(byte))
        return self.steps[key]

    def signatures(self, frontier):
        return sorted({a.signature for a in self.accepts if a.state in frontier})


@lru_cache(maxsize=8)
def automaton(data):
    return Automaton(data)


def open_flow(data, record, words):
    """The pairs of offset 0 are told, and the record is that of the start states."""
    refusal = list_refusal(data)
    if not refusal and len(record) != FLOW_SIZE:
        refusal = 4
    if refusal:
        return Opened(refusal, 0, words, record)
    nfa = automaton(data)
    first = [value for signature in nfa.signatures(nfa.starts) for value in (signature, 0)]
    if len(first) // 2 > len(words) // 2:
        return Opened(15, 0, words, record)
    return Opened(0, len(first) // 2, first + words[len(first):],
                  pack_flow(Flow(nfa.starts, 0, 0)))


def union(sets):
    return frozenset().union(*sets)


# The feeds

def feed_refusal(data, record, start, piece):
    """The lowest of 1 to 6, the tests that every feed begins with."""
    refusal = list_refusal(data)
    if refusal:
        return refusal
    if len(record) != FLOW_SIZE or record[RESERVED_AT:ROWS_AT] != bytes(4):
        return 4
    flow = unpack_flow(record)
    if flow.rows > STATES * flow.offset:
        return 4
    if flow.frontier - automaton(data).named:
        return 4
    if start != flow.offset:
        return 5
    if flow.offset + len(piece) > MOST_OFFSET:
        return 6
    return 0


def run(nfa, record, words, piece, move):
    """Feed byte by byte. move gives the new frontier and the rows read for a
    frontier and a byte, or None where the split feed refuses with 14."""
    room = len(words) // 2
    flow = unpack_flow(record)
    told = []
    consumed = 0
    refusal = 0
    for byte in piece:
        moved = move(flow.frontier, byte)
        if moved is None:
            refusal = 14
            break
        frontier, rows = moved
        due = [(signature, flow.offset + 1) for signature in nfa.signatures(frontier)]
        if len(told) + len(due) > room:
            break
        told += due
        flow = Flow(frontier, flow.offset + 1, flow.rows + rows)
        consumed += 1
    written = [value for pair in told for value in pair]
    return Answer(refusal, consumed, len(told), refusal == 0 and consumed == len(piece),
                  written + words[len(written):], pack_flow(flow))


def refused(refusal, words, record):
    return Answer(refusal, 0, 0, False, words, record)


def plain_feed(data, record, start, words, piece):
    refusal = feed_refusal(data, record, start, piece)
    if refusal:
        return refused(refusal, words, record)
    nfa = automaton(data)

    def move(frontier, byte):
        return nfa.step(frontier, byte), len(frontier)

    return run(nfa, record, words, piece, move)
