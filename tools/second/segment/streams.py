"""The stream of segments and renewals."""

from second.dice import make_groups
from second.segment import cases
from second.segment.tape import Tape
from second.stream import Stream

SEED = 20261116


def make(tape):
    make_groups(tape, SEED, cases.GROUPS)


STREAMS = [Stream(
    "segment", "crates/segment_replay/stdin", "crates/segment_replay/stdout", Tape, None, make,
    {"t": ("take", [0, 18]), "o": ("opening", [0]),
     "g": ("feed", [0, 1, 2, 3, 4, 6, 7, 8, 9, 14, 18]), "n": ("renewal", [0, 4]),
     "p": ("feed by an index", [0, 4, 6, 8, 14, 18]), "x": ("feed by an automaton", [0, 4, 6, 18, 24])})]
