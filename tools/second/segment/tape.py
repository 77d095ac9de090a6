"""The commands for segments and renewals, and their lines."""

from second.index import model as indexes
from second.list import model
from second.machine import model as machines
from second.segment import model as segments
from second.segment.model import Held
from second.sizes import OFFSET_AT
from second.table import model as tables
from second.tape import Ask, Load, digest, digest_words, sown
from second.tape import Tape as Base

MOST_WORDS = 600
ANY = 2 ** 32  # bytes: these blocks are as long as the cases have them


class Tape(Base):
    """Beside what is loaded: what is held, and the number of the byte at offset 0. A load is written
    though it is current."""

    LOADS = {"L": Load("list", b"", ANY), "T": Load("table", tables.EMPTY, (ANY,) * 4),
             "R": Load("record", b"", ANY), "P": Load("segment", b"", ANY)}
    ASKS = {"H": Ask("sow_held", "44"), "S": Ask("sow_segment", "44"), "t": Ask("take", "4444"),
            "d": Ask("due", "4444"), "o": Ask("open", "4"), "g": Ask("hear", "444"),
            "p": Ask("hear_at", "444"), "x": Ask("hear_machine", "444"), "n": Ask("renew", ""),
            "z": Ask("offset", "")}
    UNCOUNTED = "dz"

    def __init__(self):
        super().__init__()
        self.held, self.first, self.opened = Held(0, 0, b""), 0, False

    def group(self, name):
        """Begins a group, with everything current empty and no flow opened."""
        self.groups.append([name, 0])
        for letter in "LTR":
            self.load(letter, self.LOADS[letter].empty)
        self.sow_held(0, 0)
        self.load("P", b"")
        self.opened = False

    def load(self, letter, value):
        self.set(letter, value)

    def load_list(self, data):
        self.load("L", data)

    def load_table(self, table):
        self.load("T", table)

    def load_record(self, record):
        self.load("R", record)

    def load_segment(self, data):
        self.load("P", data)

    def sow_held(self, count, seed):
        self.command("H", count, seed)
        self.held = Held(self.held.start, self.held.length, sown(count, seed))

    def sow_segment(self, count, seed):
        self.command("S", count, seed)
        self.segment = sown(count, seed)

    def found(self, after, held, start):
        """What is due, and a digest of it."""
        found = segments.due(after, held, start, self.segment)
        return [*found, digest(segments.part(found, held, self.segment))]

    def take(self, after, held_start, held_length, start):
        held = Held(held_start, held_length, self.held.buffer)
        refusal, held = segments.take(after, held, start, self.segment)
        self.held = Held(self.held.start, self.held.length, held.buffer)
        self.answer("t", [after, held_start, held_length, start], [
            refusal, held.start, held.length, digest(held.buffer), *self.found(after, held, start)])

    def due(self, after, held_start, held_length, start):
        held = Held(held_start, held_length, self.held.buffer)
        self.answer("d", [after, held_start, held_length, start], self.found(after, held, start))

    def open(self, first):
        self.first, self.held, self.opened = first, Held(0, 0, self.held.buffer), True
        opened = model.open_flow(self.list, self.record, [0] * MOST_WORDS)
        self.record = opened.record
        self.answer("o", [first], [opened.refusal, opened.pairs, digest(self.record)])

    def hear(self, bound, words, start):
        """The segment is fed, by the list at bound 0, else through the table."""
        assert self.opened

        def feed(record, at, room, piece):
            if bound == 0:
                return model.plain_feed(self.list, record, at, room, piece)
            return tables.split_feed(self.list, self.table, bound, record, at, room, piece)

        return self.heard("g", [bound, words, start], feed, words, start)

    def heard(self, letter, asked, feed, words, start, offset_at=OFFSET_AT, more=lambda: []):
        """The line of a segment that is fed, by records with the offset there."""
        heard = segments.hear(feed, self.record, self.first, self.held, start, self.segment,
                              [0] * words, offset_at)
        self.record, self.held = heard.record, heard.held
        self.answer(letter, asked, [
            heard.refusal, len(heard.down), heard.pairs, heard.all, heard.held.start,
            heard.held.length, digest_words(heard.words), digest(heard.record),
            digest(heard.held.buffer), *more()])
        return heard

    def hear_at(self, hint, words, start):
        """By an index, which stands in the place of the table's rows; the split answered is kept."""
        assert self.opened
        self.split = hint

        def feed(record, at, room, piece):
            stood = indexes.prepared_feed(self.table.splits, self.table.rows, hint, record, at, room, piece)
            self.split = stood.split if piece else self.split
            return stood.answer

        return self.heard("p", [hint, words, start], feed, words, start, more=lambda: [self.split])

    def hear_x(self, words, start):
        """By an automaton with bits and counters: its moves and programs stand in the place of parts
        and rows."""
        return self.hear_machine(0, words, start)

    def hear_machine(self, none, words, start):
        assert self.opened

        def feed(record, at, room, piece):
            return machines.feed(self.table.parts, self.table.rows, record, at, room, piece)

        return self.heard("x", [none, words, start], feed, words, start, offset_at=4)

    def renew(self):
        refusal, self.first, self.record = segments.renew(self.first, self.record)
        return self.answer("n", [], [refusal, self.first, digest(self.record)])

    def offset(self):
        self.answer("z", [], [segments.offset(self.record)])
