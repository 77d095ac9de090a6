"""A stream: where its commands and lines lie, and how they are made, read back and counted."""

from collections import namedtuple
from pathlib import Path

from second.tape import read

ROOT = Path(__file__).resolve().parents[2]
LINE = "%-22s %6s  %s"

# The family whose counts.txt has its counts; the two files; the tape, and the one that also checks what it is asked, where there is such; what
# puts the cases on it; of each letter a name and the refusals that have to be there, so often at
# least; and what else is counted, a function from the tape to lines.
Stream = namedtuple("Stream", "family commands lines tape checked make asked least more",
                    defaults=[60, None])


def made(stream):
    """A tape with the cases."""
    tape = (stream.checked or stream.tape)()
    stream.make(tape)
    return tape


def replayed(stream):
    """A tape that was asked what the stream asks."""
    tape = (stream.checked or stream.tape)()
    tape.writes = False
    for letter, values in read((ROOT / stream.commands).read_bytes(), tape):
        tape.do(letter, values)
    return tape


def counted(stream, tape):
    """How many lines there are of each answer, and of each group."""
    out = [stream.commands, "", (LINE % ("command", "lines", "refusal:lines"))]
    for letter, (name, numbers) in stream.asked.items():
        found = {number: times for (key, number), times in tape.counts.items() if key == letter}
        assert sorted(found) == numbers, (letter, found)
        assert min(found.values()) >= stream.least, (letter, found)
        out.append(LINE % ("%s  %s" % (letter, name), sum(found.values()),
                           " ".join("%d:%d" % (number, found[number]) for number in numbers)))
    out.append((LINE % ("all", len(tape.lines), "")).rstrip())
    if stream.more:
        out += ["", *stream.more(tape)]
    if tape.groups:
        out += ["", (LINE % ("group", "lines", "")).rstrip()]
        out += [(LINE % (name, count, "")).rstrip() for name, count in tape.groups]
    return "\n".join(out) + "\n"


def groups(stream, counts):
    """The groups of a stream, each with its number of lines, as a text of counts has them."""
    rows = counts.split(stream.commands + "\n", 1)[1].split("\ngroup ", 1)[1].split("\n\n", 1)[0]
    return [(name, int(count)) for name, count in map(str.split, rows.splitlines()[1:])]
