"""The commands for the questions why, and their lines."""

from second.tape import Ask, Load, digest, lent_bytes
from second.tape import Tape as Base
from second.why import model as reasons

# The most states and bytes that are lent, and the longest list, record and piece.
MOST_RUN, MOST_WORK = 512, 65536
MOST_LIST, MOST_RECORD, MOST_PIECE = 65792, 400, 8192


def lent_run(count):
    """Lent states, as they are before a call."""
    return [(40000 + i) % 65536 for i in range(count)]


class Tape(Base):
    LOADS = {"L": Load("list", b"", MOST_LIST), "R": Load("record", b"", MOST_RECORD),
             "P": Load("piece", b"", MOST_PIECE)}
    ASKS = {"w": Ask("question", "184844"), "e": Ask("edge", "444")}

    def group(self, name):
        """Begins a group, with nothing current."""
        self.groups.append([name, 0])
        self.load_all(b"", b"", b"")

    def load_all(self, data, record, piece):
        self.load("L", data)
        self.load("R", record)
        self.load("P", piece)

    def ask(self, start, of_state, asked, offset, states, size):
        """A question with so many states and bytes lent."""
        return self.question(b"gs"[of_state], start, asked, offset, states, size)

    def question(self, kind, start, asked, offset, states, size):
        """Why a signature, where the kind is g, or a state, where it is s."""
        assert states <= MOST_RUN and size <= MOST_WORK
        told = reasons.why(self.list, self.record, start, self.piece, kind == ord("s"), asked, offset,
                           lent_run(states), lent_bytes(size))
        return self.answer("w", [kind, start, asked, offset, states, size],
                           [told.refusal, digest(told.work)] + told.run)

    def edge(self, source, byte, target):
        found = reasons.edge(self.list, source, byte, target)
        return self.answer("e", [source, byte, target], [found.refusal, found.place])
