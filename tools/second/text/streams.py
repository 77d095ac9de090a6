"""The stream of signature texts."""

from second.dice import make_groups
from second.stream import Stream
from second.text import cases, examples
from second.text.tape import Checked, Tape

SEED = 20261117


def make(tape):
    examples.check()
    make_groups(tape, SEED, cases.GROUPS)


STREAMS = [Stream(
    "text", "crates/text_replay/stdin", "crates/text_replay/stdout", Tape, Checked, make,
    {"k": ("compile", [0, 19, 20, 21]), "m": ("match", [0, 1, 15])})]
