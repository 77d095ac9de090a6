"""Signature text, from the rules alone: which texts fit and the first place where no continuation does, what a text's language is, and the list of its position automaton.

Whether a front of a text can go on is asked of the grammar, which stands here as data, by following every way to read it (an Earley chart); words of one or a few
bytes, repeat counts and members of classes too, are written out one by one, so that no limit is worked out by looking ahead. What a text matches is the set of
places where it may end, straight from its tree. The position automaton is found by walking the empty moves of the text as it is written out, not by first and last
positions. The three share the tree alone."""

import re
from collections import namedtuple

STATES, RECORDS, RECORD_SIZE = 1024, 8192, 8
MOST_DEPTH, MOST_TIMES = 16, 300
LOOP_FROM, LOOP_TO = 0, 255

ALL = frozenset(range(256))
SPACES = frozenset([32]) | frozenset(range(9, 14))
SPECIAL = frozenset(rb"\.[]()|*+?{}^")
CLASS_SPECIAL = frozenset(rb"\[]^-")
HEX = "0123456789abcdefABCDEF"


# The words of the grammar, written out

class Words:
    """Some words, and what they begin with."""

    def __init__(self, words):
        self.words = frozenset(words)
        self.fronts = frozenset(word[:i] for word in self.words for i in range(len(word)))


def spelled(special):
    """The single bytes as they may be written, each with its value."""
    singles = {bytes([value]): value for value in range(256) if value not in special}
    singles[rb"\n"] = 10
    for high in HEX:
        for low in HEX:
            singles[("\\x" + high + low).encode()] = int(high + low, 16)
    return singles


def member_words():
    singles = spelled(CLASS_SPECIAL)
    ranges = [low + b"-" + high for low, a in singles.items() for high, b in singles.items() if a <= b]
    return list(singles) + [rb"\s"] + ranges


def mark_words():
    counts = {("%0*d" % (digits, value)).encode(): value for digits in (1, 2, 3) for value in range(10 ** digits)}
    times = [b"{" + m + b"," + n + b"}" for m, a in counts.items() if a <= MOST_TIMES
             for n, b in counts.items() if a <= b <= MOST_TIMES]
    return [b"*", b"+", b"?"] + times


LEAF = Words(list(spelled(SPECIAL)) + [b".", rb"\s"])
MEMBER = Words(member_words())
MARK = Words(mark_words())
BOUND, BAR, OPEN, CLOSE, CLASS, NOT, CLASS_END = (Words([word]) for word in (b"^", b"|", b"(", b")", b"[", b"^", b"]"))

GRAMMAR = {
    "text": [["alternatives"], [BOUND, "alternatives"]],
    "alternatives": [["sequence"], ["alternatives", BAR, "sequence"]],
    "sequence": [[], ["sequence", "item"]],
    "item": [["atom"], ["atom", MARK]],
    "atom": [[LEAF], ["class"], [OPEN, "alternatives", CLOSE]],
    "class": [[CLASS, "members", CLASS_END], [CLASS, NOT, "members", CLASS_END]],
    "members": [[MEMBER], ["members", MEMBER]],
}
EMPTY = {"text", "alternatives", "sequence"}


# Which fronts can go on

Part = namedtuple("Part", "head body dot began")


class Chart:
    """All ways to read the fronts of a text, up to the first that cannot go on. `places` says how far that is: the number of bytes that can."""

    def __init__(self, text):
        self.text = text
        self.columns = [set() for _ in range(len(text) + 1)]
        self.waiting = [{} for _ in range(len(text) + 1)]
        self.alive = [False] * (len(text) + 1)
        self.deepest, depth = 0, 0
        self.columns[0] = {Part("text", tuple(body), 0, 0) for body in GRAMMAR["text"]}
        self.places = 0
        for at in range(len(text) + 1):
            if not self.columns[at] and not self.alive[at]:
                break
            self.places = at
            self.close(at)
            for part in self.columns[at]:
                if part.head == "atom" and part.body[0] is OPEN:
                    depth += (part.dot == 1) - (part.dot == 3)
            self.deepest = max(self.deepest, depth)
        self.fits = self.places == len(text) and any(
            part.head == "text" and part.dot == len(part.body) for part in self.columns[len(text)])

    def close(self, at):
        """Adds what follows from the parts at a place, and the parts behind the words that begin there."""
        left, reads = list(self.columns[at]), {}

        def add(part):
            if part not in self.columns[at]:
                self.columns[at].add(part)
                left.append(part)

        while left:
            part = left.pop()
            if part.dot == len(part.body):
                for other in list(self.waiting[part.began].get(part.head, ())):
                    add(other._replace(dot=other.dot + 1))
                continue
            symbol = part.body[part.dot]
            if isinstance(symbol, Words):
                reads.setdefault(symbol, []).append(part)
                continue
            self.waiting[at].setdefault(symbol, []).append(part)
            for body in GRAMMAR[symbol]:
                add(Part(symbol, tuple(body), 0, at))
            if symbol in EMPTY:
                add(part._replace(dot=part.dot + 1))
        for words, parts in reads.items():
            self.read(at, words, [part._replace(dot=part.dot + 1) for part in parts])

    def read(self, at, words, after):
        end = at + 1
        while end <= len(self.text):
            have = self.text[at:end]
            if have in words.words:
                self.columns[end].update(after)
            if have not in words.fronts:
                return
            self.alive[end] = True
            end += 1


def reading(text):
    """(refusal, place): 20, 19 with the place, or 0."""
    chart = Chart(text)
    if chart.deepest > MOST_DEPTH:
        return 20, 0
    if not chart.fits:
        return 19, chart.places
    return 0, 0


# The tree of a text that fits

TOKEN = re.compile(rb"\\x..|\\.|\[[^]]*\]|\{[^}]*\}|.", re.S)
MEMBER_TOKEN = re.compile(rb"(\\x..|\\.|.)(?:-(\\x..|\\.|.))?", re.S)

Leaf = namedtuple("Leaf", "bytes")
Row = namedtuple("Row", "items")
Either = namedtuple("Either", "rows")
Times = namedtuple("Times", "item least most")  # most is None where there is no most


def value(word):
    if word == rb"\n":
        return 10
    return int(word[2:], 16) if word[:2] == rb"\x" else word[0]


def class_bytes(word):
    inner = word[1:-1]
    negated = inner[:1] == b"^"
    have = set()
    for low, high in MEMBER_TOKEN.findall(inner[negated:]):
        if low == rb"\s":
            have |= SPACES
        elif high:
            have |= set(range(value(low), value(high) + 1))
        else:
            have.add(value(low))
    return ALL - have if negated else frozenset(have)


def leaf_bytes(word):
    if word == b".":
        return ALL
    if word == rb"\s":
        return SPACES
    if word[:1] == b"[" and len(word) > 1:
        return class_bytes(word)
    return frozenset([value(word)])


def marked(item, mark):
    if mark == b"*":
        return Times(item, 0, None)
    if mark == b"+":
        return Times(item, 1, None)
    if mark == b"?":
        return Times(item, 0, 1)
    least, most = mark[1:-1].split(b",")
    return Times(item, int(least), int(most))


def tree(text):
    """(whether it is bound to offset 0, its tree), of a text that fits."""
    bound = text[:1] == b"^"
    open_groups = [[[]]]
    for word in TOKEN.findall(text[bound:]):
        rows = open_groups[-1]
        if word == b"(":
            open_groups.append([[]])
        elif word == b")":
            open_groups.pop()
            open_groups[-1][-1].append(Either([Row(row) for row in rows]))
        elif word == b"|":
            rows.append([])
        elif word in MARK.words:
            rows[-1][-1] = marked(rows[-1][-1], word)
        else:
            rows[-1].append(Leaf(leaf_bytes(word)))
    assert len(open_groups) == 1
    return bound, Either([Row(row) for row in open_groups[0]])


# The language: where a match that begins at some places may end

def after(node, data, froms):
    if isinstance(node, Leaf):
        return frozenset(at + 1 for at in froms if at < len(data) and data[at] in node.bytes)
    if isinstance(node, Row):
        for item in node.items:
            froms = after(item, data, froms)
        return froms
    if isinstance(node, Either):
        return frozenset().union(*[after(row, data, froms) for row in node.rows])
    ends, count = set(froms if node.least == 0 else ()), 0
    while froms and count != node.most:
        count += 1
        more = after(node.item, data, froms)
        if count >= node.least:
            if node.most is None and more <= ends:
                break
            ends |= more
        elif more == froms:
            # Further times lead to the same places.
            count = max(count, node.least - 1)
        if more == froms and count >= node.least:
            break
        froms = more
    return frozenset(ends)


def ends(text, data):
    """The offsets k such that the first k bytes end in a word of the language; of a bound text, such that they are one."""
    bound, node = tree(text)
    return sorted(after(node, data, frozenset([0] if bound else range(len(data) + 1))))


# The position automaton

class TooBig(Exception):
    """More positions or records than a list has."""


def positions(node):
    if isinstance(node, Leaf):
        return 1
    if isinstance(node, Row):
        return sum(positions(item) for item in node.items)
    if isinstance(node, Either):
        return sum(positions(row) for row in node.rows)
    return positions(node.item) * (1 if node.most is None else node.most)


class Moves:
    """A text written out: places between its leaves, with the empty moves from each; a leaf leads from one place to another. Leaves are numbered from 1, left to right."""

    def __init__(self, node):
        self.moves, self.reads = [], []
        self.letters, self.behind = [None], [0]
        self.place()
        self.last = self.put(node, 0)

    def place(self):
        self.moves.append([])
        self.reads.append(None)
        return len(self.moves) - 1

    def fresh(self, at):
        new = self.place()
        self.moves[at].append(new)
        return new

    def put(self, node, at):
        """Writes a tree at a place; answers the place behind it."""
        if positions(node) == 0:
            return at
        at = self.fresh(at)
        if isinstance(node, Leaf):
            self.reads[at] = len(self.letters)
            self.letters.append(node.bytes)
            self.behind.append(self.place())
            return self.behind[-1]
        if isinstance(node, Row):
            for item in node.items:
                at = self.put(item, at)
            return at
        if isinstance(node, Either):
            behind = [self.put(row, at) for row in node.rows]
            end = self.place()
            for one in behind:
                self.moves[one].append(end)
            return end
        return self.put_loop(node, at) if node.most is None else self.put_times(node, at)

    def put_loop(self, node, at):
        begin = self.fresh(at)
        behind = self.put(node.item, begin)
        end = self.fresh(behind)
        self.moves[behind].append(begin)
        if node.least == 0:
            self.moves[begin].append(end)
        return end

    def put_times(self, node, at):
        """So many times; from before each time after the m-th there is a move behind them all."""
        skips = []
        for time in range(1, node.most + 1):
            if time > node.least:
                skips.append(at)
            at = self.put(node.item, at)
        end = self.fresh(at)
        for one in skips:
            self.moves[one].append(end)
        return end

    def walked(self, at):
        """The leaves that may come next from a place, and whether the text may end there."""
        seen, left, found = {at}, [at], set()
        while left:
            one = left.pop()
            if self.reads[one] is not None:
                found.add(self.reads[one])
            for other in self.moves[one]:
                if other not in seen:
                    seen.add(other)
                    left.append(other)
        return found, self.last in seen


def runs(have):
    """The longest runs of bytes."""
    return [(low, next(high for high in range(low, 256) if high + 1 not in have)) for low in sorted(have) if low - 1 not in have]


def two(number):
    return number.to_bytes(2, "little")


def edge(low, high, source, target):
    return bytes([1, low, high, 0]) + two(source) + two(target)


def records(bound, node, signature):
    moves = Moves(node)
    cut = [runs(letter) if letter is not None else None for letter in moves.letters]
    out = [bytes([2, 0, 0, 0, 0, 0]) + two(0)]
    if not bound:
        out.append(edge(LOOP_FROM, LOOP_TO, 0, 0))
    for state in range(len(moves.letters)):
        found, may_end = moves.walked(moves.behind[state])
        out += [edge(low, high, state, target) for target in found for low, high in cut[target]]
        if may_end:
            out.append(bytes([3, 0, 0, 0]) + two(state) + two(signature))
        if len(out) > RECORDS:
            raise TooBig()
    return sorted(out)


Compiled = namedtuple("Compiled", "refusal place length list")


def compile_text(text, signature, lent):
    """The answer, and the lent list at exit."""
    refusal, place = reading(text)
    if refusal != 0:
        return Compiled(refusal, place, 0, lent)
    bound, node = tree(text)
    try:
        if positions(node) > STATES - 1:
            raise TooBig()
        whole = b"".join(records(bound, node, signature))
    except TooBig:
        return Compiled(21, 0, 0, lent)
    if len(whole) > len(lent):
        return Compiled(21, 0, 0, lent)
    return Compiled(0, 0, len(whole), whole + lent[len(whole):])
