"""How far a signature text is read at an offset of a flow, and where a match begins. The text's
positions are followed straight from the grammar, beside the compiler. Not proved."""
import re

TOKEN = re.compile(rb"\\x[0-9A-Fa-f]{2}|\\[ns]|\[\^?(?:\\x[0-9A-Fa-f]{2}|\\[ns]|[^]\\])+\]|\{\d+,\d+\}|[^\\]", re.S)
MEMBER = re.compile(rb"(\\x..|\\.|.)(?:-(\\x..|\\.|.))?", re.S)
SPACES = frozenset([32, *range(9, 14)])
ALL = frozenset(range(256))
MOST_POSITIONS, MOST_DEPTH, MOST_TIMES = 1023, 16, 300


class NoText(Exception):
    """A text that does not fit, or has more positions than a list."""


def value(word):
    return 10 if word == rb"\n" else int(word[2:], 16) if word[:2] == rb"\x" else word[0]


def bytes_of(word):
    """The bytes that a leaf of a text takes."""
    if word[:1] != b"[" or len(word) == 1:
        return ALL if word == b"." else SPACES if word == rb"\s" else frozenset([value(word)])
    inner, have = word[1:-1], set()
    negated = inner[:1] == b"^"
    for low, high in MEMBER.findall(inner[negated:]):
        have |= SPACES if low == rb"\s" else set(range(value(low), value(high or low) + 1))
    return ALL - have if negated else frozenset(have)


class Positions:
    """The positions of a text: the bytes that each takes, its place in the text, which may follow it, and with which a match begins and ends."""

    def __init__(self, text):
        self.bound = text[:1] == b"^"
        self.words, at = [], int(self.bound)
        while at < len(text):
            found = TOKEN.match(text, at)
            if found is None:
                raise NoText
            self.words.append((found.group(0), at, found.end()))
            at = found.end()
        self.takes, self.places, self.follow, self.at, self.depth = [], [], [], 0, 0
        self.first, self.last, self.empty = self.either()
        if self.at != len(self.words):
            raise NoText

    def word(self):
        return self.words[self.at][0] if self.at < len(self.words) else b""

    def either(self):
        first, last, empty = self.sequence()
        while self.word() == b"|":
            self.at += 1
            more = self.sequence()
            first, last, empty = first | more[0], last | more[1], empty or more[2]
        return first, last, empty

    def sequence(self):
        first, last, empty = frozenset(), frozenset(), True
        while self.word() not in (b"", b"|", b")"):
            first, last, empty = self.joined((first, last, empty), self.item())
        return first, last, empty

    def joined(self, one, other):
        """One part and then another."""
        for position in one[1]:
            self.follow[position] |= other[0]
        return (one[0] | (other[0] if one[2] else frozenset()), other[1] | (one[1] if other[2] else frozenset()), one[2] and other[2])

    def item(self):
        begin, count = self.at, len(self.takes)
        part = self.atom()
        mark = self.word()
        if mark in (b"*", b"+", b"?"):
            self.at += 1
            if mark != b"?":
                self.joined(part, part)
            return part[0], part[1], part[2] or mark != b"+"
        if mark[:1] != b"{":
            return part
        numbers = re.fullmatch(rb"\{(\d{1,3}),(\d{1,3})\}", mark)
        least, most = map(int, numbers.groups()) if numbers else (1, 0)
        if not least <= most <= MOST_TIMES:
            raise NoText
        return self.times(part, begin, count, least, most)

    def times(self, part, begin, count, least, most):
        """An item so many times; each time behind the m-th may be passed over with those that follow."""
        behind, whole = self.at + 1, part
        if most == 0:
            del self.takes[count:], self.places[count:], self.follow[count:]
            whole = frozenset(), frozenset(), True
        ends = part[1] if least <= 1 else frozenset()
        for time in range(2, most + 1 if len(self.takes) > count else 0):
            self.at = begin
            whole = self.joined(whole, self.atom())
            ends |= whole[1] if time >= least else frozenset()
        self.at = behind
        return whole[0], ends if most else frozenset(), whole[2] or least == 0

    def atom(self):
        word, begin, end = self.words[self.at] if self.at < len(self.words) else (b")", 0, 0)
        self.at += 1
        if word == b"(":
            self.depth += 1
            part = self.either() if self.depth <= MOST_DEPTH else None
            if part is None or self.word() != b")":
                raise NoText
            self.depth -= 1
            self.at += 1
            return part
        if word in (b")", b"]", b"}", b"{", b"[", b"*", b"+", b"?", b"^") or len(self.takes) == MOST_POSITIONS:
            raise NoText
        here = frozenset([len(self.takes)])
        self.takes.append(bytes_of(word))
        self.places.append((begin, end))
        self.follow.append(frozenset())
        return here, here, False


def front(positions, flow):
    """The positions that are reached at the end of a flow: of each, where its latest match begins and the positions on the way."""
    now = {}
    for at, byte in enumerate(flow):
        before, now = now, {}
        for position, (begin, way) in before.items():
            for one in positions.follow[position]:
                if byte in positions.takes[one] and (one not in now or begin > now[one][0]):
                    now[one] = begin, way | {one}
        if at == 0 or not positions.bound:
            now.update((one, (at, frozenset([one]))) for one in positions.first if byte in positions.takes[one])
    return now


def ends(positions, reached, offset):
    """Whether a match ends at an offset, where these positions are reached."""
    return bool(positions.last & set(reached)) or positions.empty and (offset == 0 or not positions.bound)


def marks(positions, way):
    """A line with a mark under each byte of the text that is of a position on a way."""
    under = {at for one in way for at in range(*positions.places[one])}
    return "".join("^" if at in under else " " for at in range(max(under) + 1))


def place_words(flow, offset):
    """A byte of a flow with its line and column, which count from 1 as it does."""
    before = flow[:offset - 1]
    return "byte %d, column %d of line %d," % (offset, offset - 1 - before.rfind(b"\n"), before.count(b"\n") + 1)


def told(text, flow, offset):
    """Whether a text ends at an offset, and lines below it on what is read of it there; None where it does not fit."""
    try:
        positions = Positions(text)
    except NoText:
        return None
    reached = front(positions, flow[:offset])
    last = {one: reached[one] for one in reached if one in positions.last}
    if last:
        begin, way = max(last.values(), key=lambda found: found[0])
        return True, [marks(positions, way), "It is read from %s to the end." % place_words(flow, begin + 1)]
    if ends(positions, reached, offset):
        return True, ["It matches the empty word there."]
    if not reached:
        return False, ["Nothing of it is read there."]
    begin, way = reached[max(reached, key=lambda one: positions.places[one])]
    return False, [marks(positions, way), "It is read so far there, from %s on." % place_words(flow, begin + 1)]
