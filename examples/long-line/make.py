#!/usr/bin/env python3
"""Writes the list of this example, rules.bin, and its two flows. tools/counters makes the other
files, as README.md says.

  python3 examples/long-line/make.py
"""
import os
import sys

sys.dont_write_bytecode = True
HERE = os.path.dirname(os.path.abspath(__file__))
sys.path.insert(0, os.path.join(HERE, "..", "..", "tools"))

import command  # noqa: E402

WORD = b"milk "
LIMIT = 300
SIGNATURE = 5
LINE_FEED = 10


def longest_front(text):
    """How many bytes of the word the text ends with."""
    return max(n for n in range(len(WORD) + 1) if text.endswith(WORD[:n]))


def rules():
    """A state for each byte after the word, and for each front of it."""
    records = []

    def edge(low, high, source, target):
        records.append(bytes([1, low, high, 0]) + source.to_bytes(2, "little") + target.to_bytes(2, "little"))

    def others(source, target):
        edge(0, LINE_FEED - 1, source, target)
        edge(LINE_FEED + 1, 255, source, target)

    for state in range(len(WORD)):
        bytes_by = {}
        for byte in range(256):
            bytes_by.setdefault(longest_front(WORD[:state] + bytes([byte])), []).append(byte)
        for target, values in sorted(bytes_by.items()):
            runs = [v for v in values if v - 1 not in values], [v for v in values if v + 1 not in values]
            for low, high in zip(*runs):
                edge(low, high, state, target)
    last = len(WORD) + LIMIT + 1
    for state in range(len(WORD), last + 2):
        edge(LINE_FEED, LINE_FEED, state, 0)
        others(state, min(state + 1, last + 1))
    records.append(bytes([2, 0, 0, 0, 0, 0, 0, 0]))
    records.append(bytes([3, 0, 0, 0]) + last.to_bytes(2, "little") + SIGNATURE.to_bytes(2, "little"))
    return b"".join(records)


def main():
    command.write_whole(HERE, {"rules.bin": rules(), "long": b"calf 9\nmilk " + b"x" * 301 + b"\ndone\n",
                               "short": b"calf 9\nmilk " + b"x" * 300 + b"\ndone\n"})


main()
