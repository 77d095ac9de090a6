"""How many sets of a list can be reached, and how many records its smallest certificate has: the
figures of the page on engines.

One counter is examples/long-line. Two counters are two letters, each counted for so many bytes of its
line. The texts begin again inside their own repeat: their lists are the compiler's, and a set of them
is every place at which the text may stand.
"""

from collections import deque

from second.certificate import model as certificates
from second.certificate.explore import NoCertificate, explore, moves_by, packed, program
from second.list import model
from second.stream import ROOT
from second.table import model as tables
from second.text import model as texts

MOST = 20000
LINE_FEED = 10
LETTERS = b"AB"
EXAMPLE = ROOT / "examples" / "long-line"


def two(number):
    return number.to_bytes(2, "little")


def two_counters(limit):
    """The list, the moves and the programs of both letters: after a letter the line is watched, and the byte past the limit tells."""
    records, last = [], limit + 3
    for place, letter in enumerate(LETTERS):
        base = place * (last + 1)
        edges = [(0, letter - 1, 0, 0), (letter, letter, 0, 1), (letter + 1, 255, 0, 0)]
        for state in range(1, last + 1):
            edges += [(LINE_FEED, LINE_FEED, state, 0)]
            edges += [(low, high, state, min(state + 1, last)) for low, high in ((0, LINE_FEED - 1), (LINE_FEED + 1, 255))]
        records += [bytes([1, low, high, 0]) + two(base + source) + two(base + target) for low, high, source, target in edges]
        records += [bytes([2, 0, 0, 0, 0, 0]) + two(base), bytes([3, 0, 0, 0]) + two(base + limit + 2) + two(5 + place)]

    def lead(state, byte):
        if byte == LINE_FEED:
            return 0
        after = [2 if stage else int(byte == letter) for stage, letter in zip(divmod(state, 3), LETTERS)]
        return 3 * after[0] + after[1]

    def runs(which, stage):
        return [[(4, which, 0)], [(3, which, limit + 1)], [(5, which, 0), (8, which, 5 + which)]][stage]

    programs = b"".join(program(*runs(0, state // 3), *runs(1, state % 3)) for state in range(9))
    return b"".join(records), moves_by(9, lead), programs


def sets(data):
    """How many sets can be reached; it stops counting at the most."""
    nfa = model.automaton(data)
    classes = tables.byte_classes(nfa)
    lowest = [classes.index(group) for group in range(max(classes) + 1)]
    seen, todo = {nfa.starts}, deque([nfa.starts])
    while todo and len(seen) < MOST:
        members = todo.popleft()
        for byte in lowest:
            after = nfa.step(members, byte)
            if after not in seen:
                seen.add(after)
                todo.append(after)
    return "%d" % len(seen) if not todo else "%d or more" % MOST


def records(data, moves, programs):
    try:
        notes = explore(data, moves, programs)
    except NoCertificate as why:
        return "no certificate: %s" % why.args[0]
    return "%d records, which the check answers with %d" % (len(notes), certificates.refusal(data, moves, programs, packed(notes)))


def say():
    one = [(EXAMPLE / name).read_bytes() for name in ("rules.bin", "moves.bin", "programs.bin")]
    for name, (data, moves, programs) in [("one counter, 300", one)] + [("two counters, %d" % limit, two_counters(limit)) for limit in (60, 61)]:
        print("%s: %s sets; %s" % (name, sets(data), records(data, moves, programs)), flush=True)
    for text in (b"a.{11,11}", b"a.{12,12}", b"milk [^\\n]{23,23}", b"milk [^\\n]{24,24}", b"milk [^\\n]{300,300}"):
        compiled = texts.compile_text(text, 7, bytes(65536))
        print("%s: %s sets" % (text.decode(), sets(compiled.list[:compiled.length])), flush=True)
    return 0
