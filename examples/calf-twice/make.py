#!/usr/bin/env python3
"""Writes the list of this example, rules.bin, and its two flows. tools/counters makes the other
files, as README.md says.

  python3 examples/calf-twice/make.py
"""
import sys
from pathlib import Path

HERE = Path(__file__).resolve().parent
sys.dont_write_bytecode = True
sys.path[:0] = [str(HERE.parent), str(HERE.parent.parent / "tools")]

import command  # noqa: E402
from by_steps import front, rules  # noqa: E402

CALF = b"#9"
LIMIT = 300
SIGNATURE = 7
LINE_FEED = 10


def step(here, byte):
    """How often the calf has come in this line, 0 to 2; how many bytes since the first time, up to
    one past the limit; how much of its mark has been read."""
    times, since, read = here
    if byte == LINE_FEED:
        return 0, 0, 0
    since = min(since + 1, LIMIT + 1) if times else 0
    if times == 2:
        return 2, since, 0
    read = front(CALF, read, byte)
    return (times + 1, since, 0) if read == len(CALF) else (times, since, read)


def told(here):
    return SIGNATURE if here[:2] == (2, LIMIT) else None


def main():
    others = b"#4 in 120 ml, #2 in 80 ml, #5 in 140 ml, #7 in 90 ml, "
    command.write_whole(HERE, {"rules.bin": rules((0, 0, 0), step, told)})
    # The second mark of calf 9 ends with the 300th byte after the first one; and with the 301st.
    # More comes in the same line.
    (HERE / "soon").write_bytes(b"#4 in\n#9" + (others * 9)[:298] + b"#9 in 60 ml, #4 in\n#9 in\n")
    (HERE / "later").write_bytes(b"#4 in\n#9" + (others * 9)[:299] + b"#9 in 60 ml, #4 in\n#9 in\n")


main()
