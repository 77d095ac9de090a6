"""The stream of the automaton with bits and counters."""

from second.dice import make_groups
from second.machine import cases, examples
from second.machine.tape import Tape
from second.stream import Stream

SEED = 20261116


def make(tape):
    examples.check()
    make_groups(tape, SEED, cases.GROUPS)


STREAMS = [Stream(
    "machine", "crates/machine_replay/stdin", "crates/machine_replay/stdout", Tape, None, make,
    {"c": ("check", [0, 24]), "o": ("opening", [0, 4, 15, 24]), "f": ("feed", [0, 4, 5, 6, 24])})]
