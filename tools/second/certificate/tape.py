"""The commands for certificates, and their lines."""

from second.certificate import model as certificates
from second.sizes import MOST_LIST, MOST_NOTES, NOTE_SIZE, X_MOVES_SIZE, X_PROGRAM_SIZE
from second.tape import BEYOND, Ask, Load, put
from second.tape import Tape as Base

MOST_STATES = 512  # of an automaton


def changes(old, new):
    """Where two byte strings of one length differ, record by record: a place and the new bytes."""
    for at in range(0, len(new), NOTE_SIZE):
        one, other = old[at:at + NOTE_SIZE], new[at:at + NOTE_SIZE]
        if one != other:
            differ = [i for i in range(len(one)) if one[i] != other[i]]
            yield at + differ[0], other[differ[0]:differ[-1] + 1]


class Tape(Base):
    MOST = 512  # records of a certificate
    LOADS = {"L": Load("list", b"", MOST_LIST + BEYOND),
             "M": Load("moves", b"", MOST_STATES * X_MOVES_SIZE + BEYOND),
             "P": Load("programs", b"", MOST_STATES * X_PROGRAM_SIZE + BEYOND),
             "Z": Load("certificate", b"", NOTE_SIZE * (MOST_NOTES + 1) + BEYOND)}
    ASKS = {"E": Ask("change", "4b"), "N": Ask("shorten", "4"), "z": Ask("check", "")}

    def __init__(self):
        super().__init__()
        self.broken = {}  # how many cases break one clause alone, by its name

    def load_lists(self, data, moves, programs):
        self.load("L", data)
        self.load("M", moves)
        self.load("P", programs)

    def load_certificate(self, new):
        """By its bytes; where it is a front of the one before, by its length alone; where it is as
        long, by the bytes that change in each record."""
        assert len(new) <= NOTE_SIZE * self.MOST + BEYOND
        old = self.certificate
        if len(new) == len(old):
            for at, data in changes(old, new):
                self.change(at, data)
        elif new == old[:len(new)]:
            self.shorten(len(new))
        else:
            self.load("Z", new)

    def change(self, at, part):
        """The bytes from this place on become these; the length stays."""
        assert at + len(part) <= len(self.certificate)
        self.command("E", at, part)
        self.certificate = put(self.certificate, at, part)

    def shorten(self, length):
        """It is its front of this length."""
        self.command("N", length)
        self.certificate = self.certificate[:length]

    def check(self):
        return self.answer("z", [], [certificates.refusal(
            self.list, self.moves, self.programs, self.certificate)])


class Longest(Tape):
    """With the most records and one more."""

    MOST = MOST_NOTES + 1
