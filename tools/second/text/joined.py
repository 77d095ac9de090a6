"""Tests how a program makes one list of a file of texts: the list is that of its texts joined and
folded by the second program, its pairs are those of its texts, and each line that is refused is said.

The program takes a file of texts and a file for the list behind it; docs/signatures.md says what they
hold. Files are made in a folder.
"""

import subprocess

from second import sizes
from second.dice import Dice
from second.join import model as joins
from second.list import model
from second.stream import ROOT
from second.text import model as texts
from second.text.drawn import RUNS, good_text, piece_of
from second.text.examples import nested

SEED, FILES, PIECES = 20261119, 60, 12


class Program:
    """A program that makes a list, and a folder for its files."""

    def __init__(self, folder, words):
        self.folder, self.words = folder, words

    def run(self, lines):
        """The exit status, what is said on standard error, and the list, or None where there is none."""
        texts_file, list_file = self.folder / "texts", self.folder / "list"
        texts_file.write_bytes(b"".join(line + b"\n" for line in lines))
        list_file.unlink(missing_ok=True)
        ended = subprocess.run([*self.words, str(texts_file), str(list_file)], stdout=subprocess.PIPE, stderr=subprocess.PIPE, check=False)
        assert ended.stdout == b""
        made = list_file.read_bytes() if list_file.exists() else None
        return ended.returncode, ended.stderr.decode(), made


def pairs(made, piece):
    """The pairs of a flow under a list, by the model."""
    words = [0] * 4096
    opened = model.open_flow(made, bytes(sizes.FLOW_SIZE), words)
    fed = model.plain_feed(made, opened.record, 0, words, piece)
    assert opened.refusal == fed.refusal == 0 and fed.all
    told = opened.words[:2 * opened.pairs] + fed.words[:2 * fed.pairs]
    return [(told[i + 1], told[i]) for i in range(0, len(told), 2)]


def text_of(dice):
    while True:
        text = good_text(dice, limit=30)
        if b"\n" not in text:
            return text


def compiled(number, text):
    """The list of one text."""
    answer = texts.compile_text(text, number, bytes(sizes.MOST_LIST))
    return answer.list[:answer.length]


def collected(signatures):
    """The list of a file of texts: each is joined to those before it, and the whole folded."""
    made = compiled(*signatures[0])
    for number, text in signatures[1:]:
        both = joins.join(made + bytes(sizes.MOST_LIST - len(made)), len(made), compiled(number, text))
        made = joins.pack(joins.folded(joins.unpack(both.left[:both.length])))
    return made


def joined(program, dice):
    """Random files: the pairs of the list are the union of those of the texts."""
    told = 0
    for _ in range(FILES):
        signatures = [(dice.pick([1, 2, 3, 0, 255]), text_of(dice)) for _ in range(dice.pick([1, 2, 2, 3, 6]))]
        lines = [str(number).encode() + b" " + text for number, text in signatures]
        status, said, made = program.run([dice.pick([b"# " + line, b""]) for line in lines] + lines)
        assert status == 0 and said.startswith("signatures: %d text" % len(lines)), said
        assert made == collected(signatures), lines
        for _ in range(PIECES):
            piece = piece_of(dice, dice.below(16))
            due = sorted({(offset, number) for number, text in signatures for offset in texts.ends(text, piece)})
            assert pairs(made, piece) == due, (lines, piece)
            told += len(due)
    return told


def refused(program):
    """Lines that are refused are said, each with its number and the place; no list is written."""
    shown = "    12 a{45,301}\n" + " " * (4 + 3 + 7) + "^\n"
    status, said, made = program.run([b"7 ab", b"", b"12 a{45,301}", b"9 " + b"(" * 17, b"ab", b"256 a", b"8 " + nested(b"a", 2, b"{300,300}"), b"3 (a\xc3"])
    assert (status, made) == (1, None)
    for line in (3, 4, 5, 6, 7, 8):
        assert "signatures: line %d: " % line in said, said
    assert shown in said and "line 3: refused 19" in said and "line 4: refused 20" in said and "line 7: refused 21" in said, said
    assert "    3 (a?\n" + " " * 9 + "^\n" in said, said
    assert "line 1:" not in said and "line 2:" not in said
    assert program.run([b"# nothing"])[0::2] == (1, None)


def limits(program):
    """1,024 states and 8,192 records pass, one more does not. The start states are shared, and a text that stands twice needs its states once."""
    halves = [b"1 ^a{300,300}b{211,211}", b"2 ^c{300,300}d{211,211}"]  # 511 positions each
    status, said, made = program.run(halves)
    assert (status, said) == (0, "signatures: 2 texts, 1023 states, 1025 records\n"), said
    status, said, made = program.run(halves + [b"3 ^e"])
    assert (status, said) == (0, "signatures: 3 texts, 1024 states, 1027 records\n"), said
    assert program.run(halves + [b"3 ^ef"])[0::2] == (1, None)
    assert program.run(halves + [b"3 e"])[0::2] == (1, None)
    status, said, made = program.run([halves[0], halves[0].replace(b"1 ", b"2 ", 1)])
    assert (status, said) == (0, "signatures: 2 texts, 512 states, 514 records\n"), said
    many = [b"5 ^" + RUNS + b"{63,63}", b"6 ^" + b"b{%d,%d}"]
    status, said, made = program.run([many[0], many[1] % (125, 125)])
    assert (status, len(made)) == (0, 8 * 8192), said
    assert program.run([many[0], many[1] % (126, 126)])[0::2] == (1, None)


def same_pairs(one, other):
    """Whether two lists tell the same pairs of every flow: the frontiers that the same bytes lead to accept the same signatures."""
    one, other = model.automaton(one), model.automaton(other)
    seen = {(one.starts, other.starts)}
    left = list(seen)
    while left:
        a, b = left.pop()
        if one.signatures(a) != other.signatures(b):
            return False
        for byte in range(256):
            pair = (one.step(a, byte), other.step(b, byte))
            if pair not in seen:
                seen.add(pair)
                left.append(pair)
    return True


def example(program):
    """The list of the example's text, and the one that is written record by record."""
    folder = ROOT / "examples" / "two-breakfasts"
    lines = (folder / "signatures").read_bytes().splitlines()
    status, said, made = program.run(lines)
    assert (status, said) == (0, "signatures: 1 text, 16 states, 29 records\n"), said
    rules = (folder / "rules.bin").read_bytes()
    assert made != rules and same_pairs(made, rules)
    assert not same_pairs(program.run([lines[-1].replace(b".*", b".+")])[2], rules)


def test(folder, words):
    program = Program(folder, words)
    example(program)
    limits(program)
    told = joined(program, Dice(SEED))
    refused(program)
    print("joined: %d files, %d pairs, all those of the texts" % (FILES, told))
    return 0
