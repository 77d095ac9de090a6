"""What to say of a signature text: what would fit where it is refused, how much it needs where it is too
large, and what in a good one may not be meant. It is read off the text alone, beside the compiler, whose
number and place it goes by. Not proved."""
import re

from saying import reached

SINGLE = rb"\\x[0-9A-Fa-f]{2}|\\n|[^][\\^-]"
MEMBER = re.compile(rb"\\s|(?:%s)(?:-(?:%s))?" % (SINGLE, SINGLE), re.S)
TOKEN = re.compile(rb"\\x[0-9A-Fa-f]{2}|\\[ns]|\[\^?(?:%s)+\]|\{\d+,\d+\}|[^[{\\]" % MEMBER.pattern, re.S)
DIGITS, HEX = b"0123456789", b"0123456789abcdefABCDEF"
MOST_DIGITS = 3

FALLS = r"this range falls: its end is no lower byte than its beginning"
PAIR = r"a range has a byte at either end; a plain - in a class is \x2D"
BOTH = r"{m,n} needs both numbers"
BELOW = r"{m,n} needs an n that is not below m"


# What would fit: `byte` is the byte at the place, or none at the text's end

def of_escape(escape, byte, in_range):
    """Behind the beginning of an escape, in a range or elsewhere."""
    if in_range and (byte == b"n" if escape == b"\\" else byte and byte in HEX):
        return FALLS
    if in_range and escape == b"\\" and byte == b"s":
        return r"a range ends with one byte, and \s are six"
    return r"after \ come xHH, n or s" if escape == b"\\" else r"\x needs two hex digits"


def of_class(inner, byte):
    """Behind the [ of a class and what follows it."""
    at = int(inner[:1] == b"^")
    while found := MEMBER.match(inner, at):
        at = found.end()
    rest = inner[at:]
    in_range, escape = rest[:1] == b"-", rest.lstrip(b"-")
    if escape:
        return of_escape(escape, byte, in_range)
    if not byte:
        return "the class needs a ] at its end"
    if in_range:
        return r"after - comes the byte that ends the range; a plain - in a class is \x2D" if byte in b"[]^-" else FALLS
    return {b"]": r"a class needs one byte, escape or range; a plain ] is \x5D", b"-": PAIR, b"[": r"a plain [ in a class is \x5B"}.get(
        byte, r"^ comes straight after [ and once; a plain ^ in a class is \x5E")


def of_repeat(inner, byte):
    """Behind the { of a repeat and what follows it."""
    least, comma, most = inner.partition(b",")
    number = most if comma else least
    if byte and byte in DIGITS:
        if int(number + byte) > reached.MOST_TIMES:
            return "a number in {m,n} is at most 300"
        return "a number in {m,n} has at most 3 digits" if len(number) == MOST_DIGITS else BELOW
    if byte == b"}" and comma:
        return BELOW if number else BOTH + ": three times or more is a{3,3}a*"
    return BOTH + (": {3,3} is three times" if byte == b"}" and number else ", of digits alone, and }")


def of_item(before, byte):
    """Outside of all these, behind a word of the text."""
    plain = {b"": "a ) is missing for each bracket that is open", b")": r"no bracket is open here; a plain ) is \x29",
             b"^": r"^ comes once, before the whole text; a plain ^ is \x5E", b"]": r"no class is open here; a plain ] is \x5D",
             b"}": r"no repeat is open here; a plain } is \x7D"}
    if byte in plain:
        return plain[byte]
    if before in (b"*", b"+", b"?") or before[:1] == b"{":
        return "an item has one mark; brackets make an item of both, as (a*)+"
    return r"a mark needs an item before it; plain they are \x2A for *, \x2B for +, \x3F for ? and \x7B for {"


def fits(text, place):
    """What would fit at the place of refusal 19."""
    at, before, byte = 0, b"", text[place:place + 1]
    while found := TOKEN.match(text[:place], at):
        at, before = found.end(), found.group(0)
    rest = text[at:place]
    of_rest = {b"\\": lambda: of_escape(rest, byte, False), b"[": lambda: of_class(rest[1:], byte), b"{": lambda: of_repeat(rest[1:], byte)}
    words = of_rest.get(rest[:1], lambda: of_item(before, byte))()
    return words if byte else "the text ends too soon: " + words


# What a text needs

def positions(text):
    """How many positions a text that fits has, repeats written out."""
    counts, last = [0], 0
    for word in TOKEN.findall(text[text[:1] == b"^":]):
        if word == b"(":
            counts.append(0)
        elif word == b")":
            last = counts.pop()
            counts[-1] += last
        elif word[:1] == b"{":
            counts[-1] += last * (int(word[1:-1].partition(b",")[2]) - 1)
        elif word not in (b"|", b"*", b"+", b"?"):
            last = 1
            counts[-1] += 1
    return counts[0]


def edges(found, targets):
    """The records of edges to some positions: one for each run of bytes."""
    return sum(byte - 1 not in found.takes[one] for one in targets for byte in found.takes[one])


def needs(text):
    """The states and records that a text that fits needs; 0 records where there are too many states."""
    states = positions(text) + 1
    if states > reached.MOST_POSITIONS + 1:
        return states, 0
    found = reached.Positions(text)
    ends = found.empty + len(found.last)
    return states, 1 + (not found.bound) + ends + edges(found, found.first) + sum(edges(found, after) for after in found.follow)


def too_large(text):
    """What helps where a text is refused with 21."""
    states, records = needs(text)
    have = "the text needs {:,} states" + (" and {:,} records" if records else "") + ", and a list has at most 1,024 states and 8,192 records: "
    return have.format(states, records) + (
        "take classes of fewer ranges, fewer items that may be passed over in a row, or smaller numbers in {m,n}" if records
        else "take smaller numbers in {m,n}, or an automaton with a counter (tools/counters)")


# What may not be meant

def can_end(found):
    """Whether some word ends in a position, or is empty."""
    seen, left = set(), [one for one in found.first if found.takes[one]]
    while left:
        one = left.pop()
        if one not in seen:
            seen.add(one)
            left += [after for after in found.follow[one] if found.takes[after]]
    return found.empty or bool(seen & found.last)


def dollar(text):
    """The place of a $ that stands as itself outside classes, or none."""
    return next((found.start() for found in TOKEN.finditer(text) if found.group(0) == b"$"), None)


def doubts(text):
    """Places of a good text with what may not be meant there; whether the text can be told."""
    found, out = reached.Positions(text), []
    if text[:1] == b" ":
        out.append((0, "the text begins with a space: one space alone stands between number and text"))
    if dollar(text) is not None:
        out.append((dollar(text), r"$ is a plain byte and no end of a line, which is \n; \x24 says so without a warning"))
    if not text:
        out.append((0, "the text is empty: it is told at every offset"))
    elif found.empty:
        out.append((0, "the text matches the empty word: it is told at " + ("offset 0 of every flow" if found.bound else "every offset")))
    if not can_end(found):
        out.append((0, "the text matches nothing, for a class in it takes no byte: it can never be told"))
    return out, can_end(found)
