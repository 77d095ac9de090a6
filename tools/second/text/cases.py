"""The cases for signature texts, in groups."""

from second.text import model as texts
from second.text.drawn import (
    MARKS, RUNS, count, good_text, hexed, piece_of, places, single, some_class,
)
from second.text.examples import BAD, GOOD, MANY, TOO_BIG, nested


def needed(text):
    """The bytes of its list."""
    return texts.compile_text(text, 0, bytes(70000)).length


def put(text, at, new, over=0):
    return text[:at] + new + text[at + over:]


# Commands

def compiled(tape, dice, text, lent=None, signature=None):
    tape.load_text(text)
    if lent is None:
        lent = dice.pick([80, 200, 400])
    return tape.compile(dice.pick([7, 0, 255, dice.below(256)]) if signature is None else signature, lent)


# Groups

def worked(tape, dice):
    for text, _ in BAD:
        for lent in (0, 64):
            compiled(tape, dice, text, lent)
    for text, signature, records in GOOD:
        size = len(bytes.fromhex(records))
        for lent in (size, size - 1, size - 8, size + 1, size + 9, 0):
            compiled(tape, dice, text, lent, signature)
        compiled(tape, dice, text, size, signature)
        for piece in (b"", b"abab", b"aaaa", b"ba\t\x0b \xff\xfe-"):
            for words in (0, 1, 2, 3, 5, 40):
                tape.match(words, piece)
    for text in TOO_BIG:
        compiled(tape, dice, text, 10000)
        tape.match(4, b"a")
    for text in (b"(" * 17, b"(" * 17 + b"*", nested(b"a", 17, b"")):
        compiled(tape, dice, text)
    compiled(tape, dice, MANY % (123, 123), 8200)
    tape.match(4, b"a" * 1023)


def each_byte(tape, dice):
    """Every byte by itself, behind a byte, behind a backslash, in a class and as the end of a range."""
    for value in range(256):
        byte = bytes([value])
        for text in (byte, b"^" + byte + b"?", b"b" + byte, b"\\" + byte, b"[" + byte + b"]", b"[^" + byte + b"b]", b"[\\" + byte + b"]",
                     b"[A-" + byte + b"]", b"[" + byte + b"-\x80]", b"a{1" + byte, b"a{1,1" + byte, b"\\x" + byte, b"\\x4" + byte):
            compiled(tape, dice, text, 64)
        compiled(tape, dice, dice.pick([byte, b"[" + byte + b"]"]), 64)
        tape.match(20, bytes([value, 0, value, 97, value ^ 32, value]))


def escapes(tape, dice):
    """Escapes of every byte, in both cases; digits that are none."""
    for value in range(256):
        text = hexed(dice, value)
        for form in (text, b"^[" + text + b"]", b"[^" + text + b"]", b"[" + text + b"-" + hexed(dice, value) + b"]"):
            compiled(tape, dice, form, 64)
            tape.match(12, bytes([value, value ^ 1, (value + 1) % 256, 10, 255, 0]))
        at = dice.pick([2, 3])
        compiled(tape, dice, put(text, at, dice.pick([b"g", b"G", b"/", b":", b"@", b"`", b" ", b"\xff", b"-", b"]", b"x"]), 1))
        compiled(tape, dice, b"[" + text[:at])


def ranges(tape, dice):
    """Ranges with low and high beside one another, each end in each way."""
    for _ in range(700):
        low = dice.pick([0, 9, 10, 11, 47, 97, 254, 255, dice.below(256)])
        high = dice.pick([low - 1, low, low + 1, dice.below(256), 10, 255, 0]) % 256
        text = b"[" + dice.pick([b"", b"^", b"a"]) + single(dice, low) + b"-" + single(dice, high) + dice.pick([b"]", b"]", b"", b"b]", b"-]"])
        if compiled(tape, dice, text, 120) == 0 and dice.chance(50):
            tape.match(30, bytes([low, high, (low - 1) % 256, (high + 1) % 256, 255, 0, 97, 98]))
        if dice.chance(30):
            compiled(tape, dice, text[:dice.below(len(text) + 1)], 120)
        if dice.chance(20):
            compiled(tape, dice, b"[" + dice.pick([single(dice, low) + rb"-\s", rb"\s-" + single(dice, high), b"^a-b-" + single(dice, high)]) + b"]", 120)


def classes(tape, dice):
    """Classes of some members; their runs; the byte 255 and the byte 0 beside `^`."""
    for _ in range(500):
        text = dice.pick([b"^", b""]) + some_class(dice)
        compiled(tape, dice, text, 200)
        tape.match(40, bytes([0, 255, 9, 10, 11, 12, 13, 14, 8, 32, 97, 98, 254, 1]) + piece_of(dice, 3))
    for _ in range(60):
        for text in (rb"[^\x00]", rb"[^\xFF]", rb"[^\x00-\xFF]", rb"[\x00-\xFF]", rb"[\xFE\xFF]", rb"[^\s]", rb"[^a\xFE-\xFF]", rb"\s", b"."):
            text = dice.pick([b"^", b""]) + text + dice.pick([b"", b"a", b"*", b"{1,2}"])
            compiled(tape, dice, text, 200)
            tape.match(40, dice.bytes(2) + bytes([255, 0, 254, 1, 9, 10, 11, 12, 13, 14, 8, 32, 31, 33]))


def counts(tape, dice):
    """{m,n} with numbers at and beside their limits, written in each way, whole and cut short."""
    numbers = [0, 1, 2, 9, 10, 29, 30, 31, 99, 100, 299, 300, 301, 309, 310, 399, 400, 999]
    for _ in range(1100):
        low, high = dice.pick(numbers + [dice.below(301)]), dice.pick(numbers + [dice.below(301)])
        if dice.chance(35):
            high = low + dice.pick([-1, 0, 1])
        if dice.chance(50) and low > high:
            low, high = high, low
        written = [count(dice, abs(n)) if dice.chance(88) else b"0" + count(dice, abs(n)) for n in (low, high)]
        text = dice.pick([b"()", b"()", b"^a", b"(^", b"(|)"]) + b"{" + written[0] + b"," + written[1] + b"}"
        if 30 < high and dice.chance(95):
            text = b"()" + text[text.index(b"{"):]
        compiled(tape, dice, text, 64)
        for _ in range(2):
            compiled(tape, dice, text[:dice.below(len(text) + 1)], 64)


def few_times(tape, dice):
    """{m,n} of a few times, one more and one less matched."""
    for _ in range(250):
        high = dice.pick([0, 1, 1, 2, 3, 4, 5])
        low = dice.pick([0, high, dice.between(0, high)])
        item = dice.pick([b"a", b"[ab]", b"(ab)", b"(a|b)", b"(a?)", b"(a|)", b"(a*)", b"(ab?)", b"(a?b?)", b"(a+)", b"(aa|b)"])
        mark = b"{%d,%d}" % (low, high)
        text = dice.pick([b"^", b"", b"^b", b"b"]) + item + mark + dice.pick([b"", b"", b"c", b"|b", b"a", b"b*"])
        compiled(tape, dice, text, 600)
        tape.match(dice.pick([80, 6]), dice.pick([b"a" * 7, b"ba" * 4, b"ab" * 6, b"aab" * 3, b"b" + b"a" * 6 + b"c"]))
        tape.match(80, piece_of(dice, dice.below(9)))


def marks(tape, dice):
    """A mark where none may stand, and behind each kind of item."""
    for mark in MARKS + [b"{0,2}", b"{1,1}"]:
        for before in (b"", b"^", b"a", b"(", b"()", b"|", b"a|", b"(a", b"(a)", b"[a]", b".", rb"\n", rb"\x41", b"a*", b"a{1,2}", b"(a)+", b"a?", b")", b"[", b"[a", b"-"):
            for behind in (b"", b"b", b"?", b")"):
                compiled(tape, dice, before + mark + behind)


def brackets(tape, dice):
    """Fifteen to eighteen brackets deep, in good texts and in bad ones, the bad place before the seventeenth and behind it."""
    for _ in range(420):
        deep = dice.pick([1, 15, 16, 16, 17, 17, 18])
        text = dice.pick([b"", b"^", b"a", b"a|", b"()", b"(a)"])
        for _ in range(deep):
            text += dice.pick([b"(", b"(", b"(", b"((", b"(a", b"(|", b"()(", b"([(](", b"(" + b"\\x28("])
        text += dice.pick([b"", b"a", b"[(]", b"a{(", b"*", b"[]", b"]", b"\\(", b"a**", b"()", b"(a)b"])
        for _ in range(dice.pick([deep, deep, deep, 16, 17, deep - 1, deep + 1, 40, 0])):
            text += dice.pick([b")", b")", b")*", b")?", b"a)", b"|)"])
        compiled(tape, dice, text, 800)
    for deep in (15, 16, 17):
        for _ in range(60):
            mark = dice.pick([b"", b"*", b"+", b"?", b"{0,1}", b"{1,1}", b"{1,2}" if dice.chance(20) else b""])
            text = dice.pick([b"^", b"b?"]) + nested(dice.pick([b"a", b"a|b", b""]), deep, mark)
            if mark == b"{1,2}":
                text = nested(nested(b"a", 2, mark), deep - 2, b"")
            compiled(tape, dice, text, 600)
            tape.match(20, b"ababb")
    for _ in range(60):
        front = dice.pick([b"*", b"a**", b"[", b"^^", b"]", b"a{1,", b"\\", b"[\\"])
        compiled(tape, dice, front + b"(" * 17)
        compiled(tape, dice, b"(" * 17 + front)
        compiled(tape, dice, b"(" * 16 + front + b"(")
        compiled(tape, dice, (b"(" * 8 + b")" * 8) * 3 + b"(" * dice.pick([16, 17]))


def cut_short(tape, dice):
    """Good texts, cut at every place."""
    for _ in range(90):
        text = good_text(dice, limit=20)
        for end in range(len(text) + 1):
            compiled(tape, dice, text[:end])


def spoiled(tape, dice):
    """Good texts with a byte changed, put in, taken out or exchanged with its neighbour."""
    for _ in range(1500):
        text = good_text(dice, limit=25)
        for _ in range(dice.pick([1, 1, 2])):
            at = dice.below(len(text) + 1)
            new = dice.pick([dice.pick([bytes([b]) for b in sorted(texts.SPECIAL)]), b"-", b",", b"0", b"a", b"x", dice.bytes(1)])
            text = dice.pick([put(text, at, new, 1), put(text, at, new), put(text, at, b"", 1), text[:at] + text[at:at + 2][::-1] + text[at + 2:]])
        if texts.reading(text)[0] != 0 or places(text) <= 100:
            compiled(tape, dice, text)


def noise(tape, dice):
    """Bytes of the grammar in any order."""
    words = [bytes([b]) for b in sorted(texts.SPECIAL)] + [b"-", b",", b"0", b"1", b"a", b"x", b"n", b"s", b"(a", b")", b"[a", b"{1,", b"\\x"]
    for _ in range(1500):
        compiled(tape, dice, b"".join(dice.pick(words) for _ in range(dice.between(0, 7))))


def languages(tape, dice):
    """Random texts, each matched on a few pieces, with room and without."""
    for _ in range(1300):
        text = good_text(dice)
        if compiled(tape, dice, text, dice.pick([600, 1200, 3000])) == 0:
            for _ in range(2):
                tape.match(dice.pick([80, 80, 80, 3, 2, 1, 0, 5, 4]), piece_of(dice, dice.below(14)))


def rooms(tape, dice):
    """The lent list has just so many bytes, some fewer or some more."""
    for _ in range(130):
        text = good_text(dice, limit=15)
        size = needed(text)
        for lent in (size, size - 1, size - dice.between(2, 7), size - 8, size - 9, size + 1, size + dice.between(2, 40), dice.below(size)):
            compiled(tape, dice, text, max(0, lent))
        if dice.chance(50):
            tape.match(6, b"ab")


def too_many(tape, dice):
    """More positions than there are states for, by a little and by far; and a bad place or too many brackets behind them, which come first."""
    for _ in range(90):
        inner = b"(" + dice.pick([b"a", b".", b"[^a]", b"(a|b)", b"a?", b"(a*b)"]) + b")"
        size = places(inner)
        times = (1023 // size + dice.pick([1, 1, 2, 100, 400]))
        text = b"".join(inner + b"{%d,%d}" % (dice.pick([0, part, 1]) if part else 0, part)
                        for part in [300] * (times // 300) + [times % 300])
        text = dice.pick([b"", b"^"]) + text
        assert places(text) > 1023
        compiled(tape, dice, text, 20000)  # with room for the records, of most
        compiled(tape, dice, text, dice.pick([0, 64]))
        compiled(tape, dice, text + dice.pick([b"*", b")", b"{", b"["]), 64)
        compiled(tape, dice, text + b"(" * 17, 64)
        compiled(tape, dice, nested(inner, dice.between(2, 14), dice.pick([b"{300,300}", b"{0,300}", b"{33,33}"])), 64)


def void(tape, dice):
    """Repeats of items that have no position, as many as nesting gives."""
    for _ in range(90):
        text = dice.pick([b"", b"|", b"()", b"a{0,0}", b"()*|"])
        for _ in range(dice.between(1, 15)):
            text = b"(" + text + b")" + dice.pick([b"{0,300}", b"{300,300}", b"{1,300}", b"*", b"+", b"?", b""])
        text = dice.pick([b"", b"^"]) + text + dice.pick([b"", b"a", b"a{0,300}" if dice.chance(5) else b"b"])
        compiled(tape, dice, text, 64)
        tape.match(9, b"ab")


def most_positions(tape, dice):
    """1,023 positions pass, 1,024 do not; few of these, as they take long."""
    compiled(tape, dice, b"(a|b){300,300}(a|[^\\x00-\\xFF]){211,211}b", 66560)
    compiled(tape, dice, b"(a|b){300,300}(a|[^\\x00-\\xFF]){212,212}", 66560)


def most_records(tape, dice):
    """8,192 records pass, 8,193 do not; room for one record less."""
    text = b"^" + RUNS + b"{63,63}b{%d,%d}"
    for times, lent in ((126, 65536), (127, 66560), (126, 65535)):
        compiled(tape, dice, text % (times, times), lent)
    compiled(tape, dice, b"^(a?){126,126}|b{%d,%d}" % (62, 62), 65536)
    compiled(tape, dice, b"^(a?){126,126}|b{%d,%d}" % (63, 63), 66560)


def long_texts(tape, dice):
    """Texts of thousands of bytes with few positions."""
    for text in (b"()" * 2000, b"|" * 4000, b"(|)" * 1500, b"a|" + b"()*" * 1000 + b"b", b"[" + b"ab" * 2000 + b"]", b"[^" + rb"\x61-\x62" * 500 + b"]", (b"(" * 16 + b")" * 16) * 150):
        compiled(tape, dice, text, 80)
        tape.match(10, b"abc")
        compiled(tape, dice, text[:-1], 80)
        compiled(tape, dice, text + b"*" + text[:7] + b"{", 80)


GROUPS = [worked, each_byte, escapes, ranges, classes, counts, few_times, marks, brackets, cut_short, spoiled, noise, languages, rooms, too_many,
          void, most_positions, most_records, long_texts]
