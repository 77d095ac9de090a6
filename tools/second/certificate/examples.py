"""The worked examples of certificates, as assertions about certificate.py."""

from second.certificate import model as certificates
from second.certificate.explore import determinised, explore, packed, program, reached
from second.list.examples import LIST
from second.machine import model as machines
from second.machine.model import Config

OFF = {}


def note(state, members, on=()):
    return certificates.pack(Config(state, frozenset(on), OFF), frozenset(members))


# Three states for the list's three sets: 1 after 'a', 2 after "ab", else 0; state 2 alerts 7.
MOVES = b"".join((1 if byte == 97 else 2 if byte == 98 and state == 1 else 0).to_bytes(2, "little")
                 for state in range(3) for byte in range(256))
PROGRAMS = program() + program() + program((6, 0, 7))
NOTES = [note(0, {0}), note(1, {0, 1}), note(2, {0, 2})]
GOOD = b"".join(NOTES)

# By name, what is refused: the programs and the certificate.
REFUSED = {
    "without the third": (PROGRAMS, NOTES[0] + NOTES[1]),
    "one doubled": (PROGRAMS, GOOD + NOTES[1]),
    "another alert": (program() + program() + program((6, 0, 8)), GOOD),
    "{1} for {0,1}": (PROGRAMS, NOTES[0] + note(1, {1}) + NOTES[2]),
    "one that nothing reaches and that does not close": (PROGRAMS, GOOD + note(0, {0}, on=[0])),
    "none": (PROGRAMS, b""),
}


def check():
    assert len(GOOD) == 612 and GOOD[:76] == bytes(12) + b"\0\0\1\0" * 16
    assert certificates.refusal(LIST, MOVES, PROGRAMS, GOOD) == 0
    assert certificates.refusal(LIST, MOVES, PROGRAMS, NOTES[2] + NOTES[0] + NOTES[1]) == 0
    for programs, refused in REFUSED.values():
        assert certificates.refusal(LIST, MOVES, programs, refused) == 22
    closed = [note(state, members, on=[0]) for state, members in ((0, {0}), (1, {0, 1}), (2, {0, 2}))]
    assert certificates.refusal(LIST, MOVES, PROGRAMS, GOOD + b"".join(closed)) == 0
    assert certificates.refusal(LIST, MOVES, PROGRAMS[1:], b"") == 24
    assert certificates.refusal(LIST[1:], MOVES, PROGRAMS[1:], b"") == 1
    sets = reached(LIST, 3)
    assert determinised(LIST, sets) == (MOVES, PROGRAMS)
    assert packed(explore(LIST, MOVES, PROGRAMS)) == GOOD
    assert machines.refused(MOVES, PROGRAMS) == 0
