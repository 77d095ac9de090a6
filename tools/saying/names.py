"""The names of signatures: the file `names` beside rules.bin, a line of number and name for each signature that has one."""

import os
import re


def read(folder):
    """The names by number; none where there is no such file."""
    path = os.path.join(folder, "names")
    if not os.path.exists(path):
        return {}
    with open(path, encoding="ascii") as file:
        return {int(number): name for number, name in (line.split() for line in file)}


def put(lines, known):
    """The lines, with its name behind the number of each signature that has one."""
    def named(found):
        name = known.get(int(found.group(2)))
        return found.group(0) if name is None else "%s (%s)" % (found.group(0), name)

    return [re.sub(r"\b([Ss]ignature) ([0-9]+)\b", named, line) for line in lines]
