#!/usr/bin/env python3
"""Writes the recorded lines with resends of the example: examples/two-breakfasts/resent and
resent-once, and the input of their cases.

usage: tools/lines.py

A segment is recorded as the number of its first byte, 4 bytes, its length, 2 bytes, low byte
first, and its bytes.
"""
import sys
from pathlib import Path

sys.dont_write_bytecode = True
import command  # noqa: E402

ROOT = Path(__file__).resolve().parent.parent
EXAMPLE = ROOT / "examples" / "two-breakfasts"


def line(flow, first, segments):
    """Segments as (from, to, other content or None), of a flow whose first byte has number `first`."""
    out = b""
    for begin, end, other in segments:
        data = flow[begin:end] if other is None else other
        out += ((first + begin) % 2 ** 32).to_bytes(4, "little") + len(data).to_bytes(2, "little") + data
    return out


def main(words):
    if command.answered(__doc__, words):
        return 0
    if words:
        return command.usage(__doc__)
    twice = (EXAMPLE / "twice").read_bytes()
    once = (EXAMPLE / "once").read_bytes()
    # the second order comes before the bytes in front of it, then again with them, and once more; the numbers wrap in between
    resent = line(twice, 2 ** 32 - 30, [
        (0, 14, None), (14, 21, None), (14, 21, None), (35, 42, None), (35, 42, None), (18, 40, None),
        (28, 42, None), (42, 56, None), (35, 56, b"FEED 4\n" * 3)])
    # the order for number nine comes twice on the line: the second time it is a resend
    resent_once = line(once, 1000, [(0, 14, None), (14, 21, None), (14, 21, None), (14, 28, None), (28, 58, None)])
    for name, data, case, said in (("resent", resent, "case_resends", "again %d\n9 42\nend 56\n" % ((2 ** 32 - 30 + 35) % 2 ** 32)),
                                   ("resent-once", resent_once, "case_resent_once", "end 58\n")):
        (EXAMPLE / name).write_bytes(data)
        (ROOT / "crates" / case / "stdin").write_bytes(data)
        (ROOT / "crates" / case / "stdout").write_text(said)
    return 0


sys.exit(main(sys.argv[1:]))
