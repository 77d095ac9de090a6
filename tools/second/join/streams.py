"""The stream of joining and folding."""

from second.dice import make_groups
from second.join import cases
from second.join.tape import Checked, Tape
from second.stream import Stream

SEED = 20261121


def make(tape):
    make_groups(tape, SEED, cases.GROUPS)


STREAMS = [Stream(
    "join", "crates/list_join_replay/stdin", "crates/list_join_replay/stdout", Tape, Checked, make,
    {"j": ("join", [0, 1, 2, 3, 27, 28]), "f": ("fold", [0, 1, 2, 3, 28])})]
