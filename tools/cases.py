#!/usr/bin/env python3
"""Writes what each program crate is run on and compared with: data/rules.bin, stdin and stdout.

usage: tools/cases.py [--check]

It writes the files under crates/; with --check it writes nothing, and the exit status is 1 where a
file differs.

The expected output comes from the definitions of the matcher alone: a frontier is a Python set,
and the whole input is one piece.
"""
import os
import sys

sys.dont_write_bytecode = True
import command  # noqa: E402

CRATES = os.path.join(os.path.dirname(os.path.abspath(__file__)), "..", "crates")

# The sizes and limits: states and signatures are the numbers below theirs.
STATES = 1024
SIGNATURES = 256
BYTE_VALUES = 256
RECORD_SIZE = 8
MOST_RECORDS = 8192
MOST_LIST = MOST_RECORDS * RECORD_SIZE

# Bytes of a piece of the program's input.
PIECE = 4096


def edge(low, high, source, target, either=0):
    return bytes([1, low, high, either]) + source.to_bytes(2, "little") + target.to_bytes(2, "little")


def start(state):
    return bytes([2, 0, 0, 0, 0, 0]) + state.to_bytes(2, "little")


def accept(state, signature):
    return bytes([3, 0, 0, 0]) + state.to_bytes(2, "little") + signature.to_bytes(2, "little")


def good(r):
    """Whether rule 2 lets a record pass."""
    first, second = int.from_bytes(r[4:6], "little"), int.from_bytes(r[6:8], "little")
    if r[0] == 1:
        return r[3] <= 1 and r[1] <= r[2] and first < STATES and second < STATES
    if r[0] == 2:
        return not any(r[1:6]) and second < STATES
    if r[0] == 3:
        return not any(r[1:4]) and first < STATES and second < SIGNATURES
    return False


def takes(r, c):
    """Whether byte c takes an edge; where byte 3 is 1, in either case of an ASCII letter."""
    cases = {c, ord(chr(c).lower()), ord(chr(c).upper())} if r[3] == 1 and c < 128 else {c}
    return any(r[1] <= case <= r[2] for case in cases)


def cut(rules):
    """The records of a list."""
    return [rules[i : i + RECORD_SIZE] for i in range(0, len(rules), RECORD_SIZE)]


def output(rules, data):
    """The lines of the program. No rules.bin counts as an empty one."""
    rules = rules or b""
    if len(rules) == 0 or len(rules) > MOST_LIST or len(rules) % RECORD_SIZE != 0:
        return "refused 1\n"
    records = cut(rules)
    if not all(good(r) for r in records):
        return "refused 2\n"
    if not any(r[0] == 2 for r in records):
        return "refused 3\n"
    number = lambda r, i: int.from_bytes(r[i : i + 2], "little")
    frontiers = [{number(r, 6) for r in records if r[0] == 2}]
    for c in data:
        frontiers.append({number(r, 6) for r in records if r[0] == 1 and number(r, 4) in frontiers[-1] and takes(r, c)})
    lines = []
    for k, frontier in enumerate(frontiers):
        for g in sorted({number(r, 6) for r in records if r[0] == 3 and number(r, 4) in frontier}):
            lines.append(f"{g} {k}\n")
    return "".join(lines) + f"end {len(data)}\n"


def mixed(n):
    """n bytes: all values in a row, then values without order; a match of `ranges` lies across the cut after a piece."""
    bs, x = bytearray(range(BYTE_VALUES)), 1
    while len(bs) < n:
        x = (x * 1103515245 + 12345) % 2**31
        bs.append(x >> 16 & 255)
    bs[PIECE - 1 : PIECE + 2] = [0x05, 0x90, 0x40]
    return bytes(bs)


# signature 7 after any "ab"
seven = [edge(0, 255, 0, 0), edge(0x61, 0x61, 0, 1), edge(0x62, 0x62, 1, 2), start(0), accept(2, 7)]

# the last state and the last signature
last, last_signature = STATES - 1, SIGNATURES - 1

# two start states; ranges that overlap, of one byte, up to 255, and in either case; a loop; a state with two signatures and two states with one
ranges = [
    accept(last, last_signature), accept(3, 9), accept(2, 9), accept(2, 0), accept(2, 9),
    edge(0x00, 0x1F, 0, 1), edge(0x80, 0xFF, 1, 2), edge(0x40, 0x7F, 2, 2), edge(0x60, 0x60, 2, 3), edge(0x90, 0xBF, 1, last),
    edge(0x00, 0xFF, 0, 0), edge(0x58, 0x62, 1, 2, 1), edge(0xE1, 0xE1, 1, 3, 1), start(last - 1), start(0), edge(0x00, 0x00, last - 1, last),
]


def many(n):
    """n records: edges on all bytes at the last state, which accepts."""
    edges = [edge(i % BYTE_VALUES, i % BYTE_VALUES, last, last) for i in range(n - 2)]
    return edges + [accept(last, last_signature), start(last)]


def example(name):
    """A file of the example of two breakfasts."""
    return open(os.path.join(CRATES, "..", "examples", "two-breakfasts", name), "rb").read()


breakfasts = cut(example("rules.bin"))

# name: list, input
cases = {
    "watchbox": (seven, b"abab"),
    "case_refused": ([r for r in seven if r[0] != 2], b"abab"),
    "case_missing": (None, b"abab"),
    "case_pauses": ([start(0), edge(0, 255, 0, 0)] + [accept(0, g) for g in reversed(range(SIGNATURES))], bytes(range(246, 256)) + b"0123456789"),
    "case_at_once": (seven + [accept(0, 5), accept(0, 3), accept(0, 5)], b""),
    "case_binary": (ranges, mixed(10000)),
    "case_limits": (many(MOST_RECORDS), b"\x00a\xff"),
    "case_long": (many(MOST_RECORDS + 1), b"\x00a\xff"),
    "case_twice": (breakfasts, example("twice")),
    "case_once": (breakfasts, example("once")),
    "case_state": (seven + [edge(0, 255, STATES, 0)], b"abab"),
}


def main(words):
    if command.answered(__doc__, words):
        return 0
    if words not in ([], ["--check"]):
        return command.usage(__doc__)
    differs = False
    for name, (records, data) in cases.items():
        rules = None if records is None else b"".join(records)
        files = {"data/rules.bin": rules, "stdin": data, "stdout": output(rules, data).encode()}
        for file, content in files.items():
            path = os.path.join(CRATES, name, file)
            old = open(path, "rb").read() if os.path.exists(path) else None
            if old == content:
                continue
            differs = True
            print("differs" if words else "writes", os.path.relpath(path))
            if not words:
                if content is None:
                    os.remove(path)
                    continue
                os.makedirs(os.path.dirname(path), exist_ok=True)
                command.write_whole(os.path.dirname(path), {os.path.basename(path): content})
    return 1 if differs and words else 0


if __name__ == "__main__":
    sys.exit(main(sys.argv[1:]))
