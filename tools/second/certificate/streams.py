"""The streams of certificates: that of the program that replays them, and of the longest one that is
replayed from outside alone."""

from second.certificate import cases, examples
from second.certificate.clauses import CLAUSES
from second.certificate.tape import Longest, Tape
from second.dice import make_groups
from second.stream import LINE, Stream

SEED = 20261117


def make(tape):
    examples.check()
    make_groups(tape, SEED, cases.GROUPS)


def make_longest(tape):
    make_groups(tape, SEED, [cases.most])


def clause_lines(tape):
    return [(LINE % (name, count, "")).rstrip() for name, count in (
        ("clause broken alone", "lines"), *((name, tape.broken[name]) for name in [*CLAUSES, "several", "none"]))]


CHECKS = Stream("certificate", "crates/machine_certificate_replay/stdin", "crates/machine_certificate_replay/stdout", Tape, None, make,
                {"z": ("certificate check", [0, 1, 2, 3, 22, 24])}, more=clause_lines)
LONGEST = Stream("certificate", "tools/second/certificate/certificates", "tools/second/certificate/certified", Longest, None,
                 make_longest, {})
STREAMS = [CHECKS, LONGEST]
