"""A tape: a stream of commands, and the lines that a right matcher answers to them.

A family's tape says by letter which commands there are. Those in LOADS make a field of the tape
current, one block or several. Those in ASKS are methods, which change a field or work out a line by
the rules; behind the letter stands what the method takes, each a number of so many bytes, the low
byte first, or b for a block. So a command is written, and a stream is read back.
"""

from collections import namedtuple
from functools import lru_cache

# Word i of a lent buffer holds this number plus i before each opening and each feed.
WORD_FILL = 2774138880

# The most words of an opening or a feed, and the longest piece of a feed.
MOST_WORDS = 1200
MOST_PIECE = 4200

# A block has at most this many bytes more than the longest good one.
BEYOND = 256

# A command that makes a field current: its name, what it is in the beginning, and its most bytes.
# Both are tuples where the field is several blocks.
Load = namedtuple("Load", "field empty most")
# Any other command: its method, and what that takes.
Ask = namedtuple("Ask", "method form")


@lru_cache(maxsize=50000)
def digest(data):
    value = 0
    for byte in data:
        value = (value * 257 + byte + 1) % 4294967291
    return value


def digest_words(words):
    return digest(b"".join(word.to_bytes(4, "little") for word in words))


def lent(words):
    """A lent buffer of so many words, as it is before a call."""
    return [WORD_FILL + i for i in range(words)]


def lent_bytes(count):
    """Lent bytes, as they are before a call."""
    return bytes((165 + i) % 256 for i in range(count))


def sown(count, seed):
    """Bytes from a seed: each a little more than the one before, and a little more again after
    256."""
    return bytes((seed + 7 * (i % 256) + i // 256) % 256 for i in range(count))


def resized(data, length):
    """Cut to so many bytes, or with zeros behind."""
    return (data + bytes(length))[:length]


def put(data, at, part):
    """The bytes from a place on become these."""
    return data[:at] + part + data[at + len(part):]


def block(data):
    """The length, and the bytes in runs: how many zeros, how many bytes after them, these bytes. A
    run ends where three zeros follow."""
    out = [len(data).to_bytes(4, "little")]
    at = 0
    while at < len(data):
        first = at
        while at < len(data) and at - first < 255 and data[at] == 0:
            at += 1
        begin = at
        while at < len(data) and at - begin < 255 and any(data[at:at + 3]):
            at += 1
        out += [bytes([begin - first, at - begin]), data[begin:at]]
    return b"".join(out)


class Reader:
    """Bytes that are read from their front on."""

    def __init__(self, data):
        self.data = data
        self.at = 0

    def take(self, count):
        assert self.at + count <= len(self.data)
        self.at += count
        return self.data[self.at - count:self.at]

    def number(self, count):
        return int.from_bytes(self.take(count), "little")

    def block(self):
        length, out = self.number(4), bytearray()
        while len(out) < length:
            zeros, count = self.number(1), self.number(1)
            out += bytes(zeros) + self.take(count)
        assert len(out) == length
        return bytes(out)

    def values(self, form):
        return [self.block() if one == "b" else self.number(int(one)) for one in form]


def packed(form, values):
    assert len(form) == len(values)
    return b"".join(block(value) if one == "b" else value.to_bytes(int(one), "little")
                    for one, value in zip(form, values))


def fits(value, most):
    """Whether a field has at most its most bytes."""
    if isinstance(value, tuple):
        return all(map(fits, value, most))
    return len(value) <= most


class Tape:
    """The commands and the lines so far, how many there are of each answer, and what is current."""

    LOADS = {}
    ASKS = {}
    ALONE = None  # the letter of the only command, where it is not written
    UNCOUNTED = ""  # letters whose lines begin with no refusal
    writes = True  # whether commands are kept

    def __init__(self):
        self.commands, self.lines, self.counts = [], [], {}
        self.groups = []  # names, each with its number of lines
        for load in self.LOADS.values():
            setattr(self, load.field, load.empty)

    @classmethod
    def form(cls, letter):
        """What stands behind the letter of a command."""
        if letter in cls.ASKS:
            return cls.ASKS[letter].form
        empty = cls.LOADS[letter].empty
        return "b" * (len(empty) if isinstance(empty, tuple) else 1)

    def group(self, name):
        """Begins a group, with everything current empty."""
        self.groups.append([name, 0])
        for letter, load in self.LOADS.items():
            self.set(letter, load.empty)

    def command(self, letter, *values):
        if self.writes:
            begun = b"" if self.ALONE else letter.encode("ascii")
            self.commands.append(begun + packed(self.form(letter), values))

    def set(self, letter, value):
        """Makes a field current."""
        setattr(self, self.LOADS[letter].field, value)
        self.command(letter, *(value if isinstance(value, tuple) else [value]))

    def load(self, letter, value):
        """Nothing is written where the field is this already."""
        load = self.LOADS[letter]
        assert fits(value, load.most), letter
        if value != getattr(self, load.field):
            self.set(letter, value)

    def answer(self, letter, asked, values):
        """Writes a command and its line, in the group named last. Gives the line's first number."""
        self.command(letter, *asked)
        self.lines.append(" ".join([letter] + [str(int(value)) for value in values]))
        if letter not in self.UNCOUNTED:
            key = letter, int(values[0])
            self.counts[key] = self.counts.get(key, 0) + 1
        if self.groups:
            self.groups[-1][1] += 1
        return values[0]

    def do(self, letter, values):
        """Does what a command of a stream asks."""
        if letter in self.ASKS:
            getattr(self, self.ASKS[letter].method)(*values)
        else:
            empty = self.LOADS[letter].empty
            self.load(letter, type(empty)(*values) if isinstance(empty, tuple) else values[0])

    def stdin(self):
        return b"".join(self.commands)

    def stdout(self):
        return "".join(line + "\n" for line in self.lines).encode("ascii")


def read(data, tape):
    """The commands of a stream, each a letter and its values, as a tape has them."""
    reader, out = Reader(data), []
    while reader.at < len(data):
        letter = tape.ALONE or reader.take(1).decode("ascii")
        out.append((letter, reader.values(tape.form(letter))))
    return out
