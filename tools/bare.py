#!/usr/bin/env python3
"""Takes the code away from a copy of a crate: every function of src/ with its comment, what it
brings in of other crates' functions, and every function's folder of proofs/. What is left are
types, constants, definitions and laws, which prove by themselves, since no law cites a function.

usage: tools/bare.py CRATE-FOLDER..
"""
import re
import shutil
import sys
from pathlib import Path

sys.dont_write_bytecode = True
import command  # noqa: E402

FUNCTION = re.compile(r'( *)(pub )?(extern "C" )?fn ')
BROUGHT = re.compile(r"use \w+::[a-z]\w*;")
TOGETHER = re.compile(r"^(use \w+::)\{([^}]*)\};\n", re.M)


def types_alone(brought):
    """A `use` of several names without those of functions."""
    names = [name.strip() for name in brought[2].split(",") if name.strip() and not name.strip()[0].islower()]
    return "%s{%s};\n" % (brought[1], ", ".join(names)) if names else ""


def without_functions(text):
    """The source without its functions. In the layout of `rt fmt` one ends with a brace as far in as it begins."""
    text = TOGETHER.sub(types_alone, text)
    kept, held, end = [], [], None
    for line in text.split("\n"):
        found = FUNCTION.match(line)
        if end is not None:
            end = None if line == end else end
        elif found:
            held, end = [], None if line.endswith("}") else found[1] + "}"
        elif re.match(r" *(//|#\[)", line):
            held.append(line)
        elif not BROUGHT.match(line):
            kept, held = kept + held + [line], []
    return "\n".join(kept + held)


def take_away(crate):
    for source in (crate / "src").glob("*.rt"):
        source.write_text(without_functions(source.read_text()))
    for part in (crate / "proofs").glob("*/"):
        if part.is_dir():
            shutil.rmtree(part)


def main(words):
    if command.answered(__doc__, words):
        return 0
    if not words or not all(Path(word, "src").is_dir() for word in words):
        return command.usage(__doc__)
    for word in words:
        take_away(Path(word))
    return 0


if __name__ == "__main__":
    sys.exit(main(sys.argv[1:]))
