#!/usr/bin/env python3
"""Writes the list of this example, rules.bin, and its two flows. tools/counters makes the other
files, as README.md says.

  python3 examples/no-answer/make.py
"""
import sys
from pathlib import Path

HERE = Path(__file__).resolve().parent
sys.dont_write_bytecode = True
sys.path[:0] = [str(HERE.parent), str(HERE.parent.parent / "tools")]

import command  # noqa: E402
from by_steps import front, rules  # noqa: E402

ORDER, ANSWER = b"feed ", b"done"
LIMIT = 200
SIGNATURE = 6


def step(here, byte):
    """How much of an order has been read; or how many bytes since it, up to one past the limit, and
    how much of the answer."""
    if here[0] == "order":
        read = front(ORDER, here[1], byte)
        return ("since", 0, 0) if read == len(ORDER) else ("order", read)
    read = front(ANSWER, here[2], byte)
    return ("order", 0) if read == len(ANSWER) else ("since", min(here[1] + 1, LIMIT + 1), read)


def told(here):
    return SIGNATURE if here[:2] == ("since", LIMIT) else None


def main():
    quiet = b"calf 4 drinks 120 ml\n" * 9
    command.write_whole(HERE, {"rules.bin": rules(("order", 0), step, told)})
    # 196 bytes stand between the order and its answer, which ends with the 200th byte; and one more.
    (HERE / "answered").write_bytes(b"feed " + (b"9\n" + quiet)[:190] + b"....\n\ndone 9\nfeed 4\ndone 4\n")
    (HERE / "late").write_bytes(b"feed " + (b"9\n" + quiet)[:190] + b".....\n\ndone 9\nfeed 4\ndone 4\n")


main()
