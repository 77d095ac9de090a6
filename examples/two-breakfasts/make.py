#!/usr/bin/env python3
"""Writes rules.bin, record by record, and prints each record with what it is for.

  python3 examples/two-breakfasts/make.py
"""
import os
import sys

sys.dont_write_bytecode = True
HERE = os.path.dirname(os.path.abspath(__file__))
sys.path.insert(0, os.path.join(HERE, "..", "..", "tools"))

import command  # noqa: E402

ORDER = b"feed 9\n"


def edge(low, high, either, source, target, why):
    return bytes([1, low, high, either, source, 0, target, 0]), why


def start(state, why):
    return bytes([2, 0, 0, 0, 0, 0, state, 0]), why


def order(source, which):
    """The edges that read an order from a state on, its letters in either case."""
    return [edge(c, c, int(chr(c).isalpha()), source + i, source + i + 1, "%s order, byte %r%s"
                 % (which, chr(c), " in either case" if chr(c).isalpha() else "")) for i, c in enumerate(ORDER)]


def accept(state, signature, why):
    return bytes([3, 0, 0, 0, state, 0, signature, 0]), why


records = [start(0, "the flow begins in state 0: no order for nine yet")]
records.append(edge(0, 255, 0, 0, 0, "any byte: still waiting for the first order"))
records += order(0, "first")
first = len(ORDER)
records.append(edge(0, 255, 0, first, first, "any byte: the first order has gone by"))
records += order(first, "repeated")
records.append(accept(2 * first, 9, "the repeated order has gone by: signature 9"))

command.write_whole(HERE, {"rules.bin": b"".join(r for r, _ in records)})
for r, why in records:
    print(" ".join("%02X" % b for b in r) + "   " + why)
