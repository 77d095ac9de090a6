"""Wrong versions of the rules, one at a time, and the lines of the streams that each one changes.

A wrong version is the rules with a few words changed. A family's wrong.py has RULES, the modules in
which words are changed; BEHIND, those that take names from them, in the order in which they do; and
VERSIONS: streams, the letters of the commands that some versions can change, or none where that is any,
and these versions, each a name and edits: what stands in one place of the rules, and what stands there
instead. A version is asked what the streams ask. Groups without one of the letters are left out.
"""

import importlib
from collections import namedtuple
from pathlib import Path

from second.stream import ROOT, groups
from second.tape import read

# A group of a stream's cases: the number of its first line, what is asked, and the right lines.
Group = namedtuple("Group", "tape name first asked right")
# A line that changes: its number from 1 on, its group, and what it says then.
Change = namedtuple("Change", "number group line")
# What rules that give no answer may end with. Any other error is one of the version's words.
BROKEN = (ArithmeticError, AssertionError, LookupError, TypeError, ValueError)


class Rules:
    """The modules of the rules. They are changed in place, so that all who use them see it."""

    def __init__(self, family):
        self.modules = [importlib.import_module(name) for name in family.RULES + family.BEHIND]
        self.sources = [Path(module.__file__).read_text(encoding="utf-8") for module in self.modules]
        self.now = list(self.sources)
        self.count = len(family.RULES)

    def changed(self, edits):
        """The sources with each edit made, in its one place."""
        sources = self.sources[:self.count]
        for old, new in edits:
            assert sum(source.count(old) for source in sources) == 1, old
            sources = [source.replace(old, new) for source in sources]
        return sources + self.sources[self.count:]

    def put(self, sources):
        """Runs the first module that is another now, and those behind it."""
        others = [now != source for now, source in zip(self.now, sources)]
        for module, source in list(zip(self.modules, sources))[others.index(True):]:
            exec(compile(source, module.__file__, "exec"), module.__dict__)
        self.now = list(sources)


def pairs(edits):
    """Edits as pairs. They stand so in a list, or one after the other."""
    return edits[0] if isinstance(edits[0], list) else list(zip(edits[::2], edits[1::2]))


def grouped(stream, letters):
    """The groups of a stream that have one of these letters."""
    right = (ROOT / stream.lines).read_text(encoding="ascii").splitlines()
    commands = iter(read((ROOT / stream.commands).read_bytes(), stream.tape))
    out, first = [], 0
    counts = (Path(__file__).parent / stream.family / "counts.txt").read_text(encoding="ascii")
    for name, count in groups(stream, counts):
        lines, asked, answered = right[first:first + count], [], 0
        while answered < count:
            asked.append(next(commands))
            answered += asked[-1][0] == lines[answered][0]
        if not letters or any(line[0] in letters for line in lines):
            out.append(Group(stream.tape, name, first, asked, lines))
        first += count
    return out


def answers(tape, group):
    """The lines of a group, as the rules are now; where they give none, that is said, and ends it."""
    for letter, values in group.asked:
        before = len(tape.lines)
        try:
            tape.do(letter, values)
        except BROKEN as error:
            yield "no answer, %s" % type(error).__name__
            return
        yield from tape.lines[before:]


def changes(asked, whole=False):
    """The lines that change; without `whole` the first alone."""
    tapes = {}
    for group in asked:
        tape = tapes.setdefault(group.tape, group.tape())
        tape.writes = False
        for at, line in enumerate(answers(tape, group)):
            if line != group.right[at]:
                yield Change(group.first + at + 1, group.name, line)
                if not whole:
                    return


def said(name, found, whole):
    """What is said of a version that some lines show."""
    first = found[0]
    count = "%6d  " % len(found) if whole else ""
    return "%s%6d  %-17s %s%s" % (count, first.number, first.group, name,
                                  " (%s)" % first.line if first.line.startswith("no answer") else "")


def shown(family, words, whole):
    """Says of each wrong version whose name has one of the words, or of each, what shows it. Gives the
    names of those that no line shows."""
    rules, unseen = Rules(family), []
    for streams, letters, versions in family.VERSIONS:
        wanted = [(name, pairs(edits)) for name, *edits in versions
                  if not words or any(word in name for word in words)]
        asked = [group for stream in streams for group in grouped(stream, letters)] if wanted else []
        assert not list(changes(asked)), "the right rules change a line"
        for name, edits in wanted:
            rules.put(rules.changed(edits))
            found = list(changes(asked, whole))
            rules.put(rules.sources)
            if found:
                print(said(name, found, whole), flush=True)
            else:
                unseen.append(name)
    return unseen
