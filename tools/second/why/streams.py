"""The stream of the questions why."""

from second.dice import make_groups
from second.stream import Stream
from second.why import cases
from second.why.tape import Tape

SEED = 20261118


def make(tape):
    make_groups(tape, SEED, cases.GROUPS)


STREAMS = [Stream(
    "why", "crates/list_why_replay/stdin", "crates/list_why_replay/stdout", Tape, None, make,
    {"w": ("why", [0, 1, 2, 3, 4, 5, 6, 25, 26]), "e": ("edge", [0, 1, 2, 3, 26])})]
