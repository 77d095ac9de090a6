"""An automaton with bits and counters in words: written, as tools/show does, and read, as
tools/counters does. Not proved.

A file of words has lines. A state begins with its name; the states are numbered as they stand, and
the first one starts:

    state waiting                        # from # on a line says nothing
        runs: lower counter 0; alert 6 if counter 0 is 0
        on d: state d
        on [\\n\\x00-\\x1F]: state waiting
        on every other byte: state waiting

A name is of letters, digits, _ and -; one of digits alone is the state's own number. `runs:` has up
to 8 instructions, and may be missing where there is none. `on` has one byte or class in the notation
of signature texts: a byte, \\xHH, \\n, \\s, . or [..]. No byte has two lines, and each has one, or
`on every other byte` has it; where all go one way, `on every byte`.

What is read of the words that were written is the same bytes, whatever automaton it is.
"""

import re
from collections import namedtuple

from second.machine import model as machines

SAID = {
    machines.NOTHING: "nothing",
    machines.SET: "set bit %(which)d",
    machines.CLEAR: "clear bit %(which)d",
    machines.COUNT: "set counter %(which)d to %(number)d",
    machines.STOP: "turn counter %(which)d off",
    machines.LOWER: "lower counter %(which)d",
    machines.ALERT: "alert %(number)d",
    machines.ALERT_BIT: "alert %(number)d if bit %(which)d is set",
    machines.ALERT_ZERO: "alert %(number)d if counter %(which)d is 0",
}
SPACES = frozenset([9, 10, 11, 12, 13, 32])  # the bytes of \s
APART = b"\\.[]()|*+?{}^"  # bytes that do not stand for themselves in a signature text
APART_IN_CLASS = b"\\[]^-"  # and those that do not in a class
BYTES = frozenset(range(256))
ALL, OTHERS = "every byte", "every other byte"


# Written

def sign(value, apart):
    """One byte, by itself where it can be seen and stands for itself."""
    if value == 10:
        return "\\n"
    return chr(value) if 32 < value < 127 and value not in apart else "\\x%02X" % value


def runs(values):
    """Numbers as pairs of the first and the last of each run."""
    out = []
    for value in sorted(values):
        if out and out[-1][1] == value - 1:
            out[-1] = out[-1][0], value
        else:
            out.append((value, value))
    return out


def members(values):
    """Bytes as what stands between the brackets of a class."""
    spaces = "\\s" if SPACES <= values and not values & {8, 14, 31, 33} else ""
    out = []
    for low, high in runs(values - SPACES if spaces else values):
        if high - low < 2:
            out += [sign(value, APART_IN_CLASS) for value in range(low, high + 1)]
        else:
            out.append("%s-%s" % (sign(low, APART_IN_CLASS), sign(high, APART_IN_CLASS)))
    return spaces + "".join(out)


def item(values):
    """Bytes, at least one, as one byte or class of a signature text."""
    if values == BYTES:
        return "."
    if values == SPACES:
        return "\\s"
    if len(values) == 1:
        value, = values
        return "[%c]" % value if value in b":#" else sign(value, APART)
    return "[^%s]" % members(BYTES - values) if len(values) > 128 else "[%s]" % members(values)


def program_words(program):
    """A program up to its last instruction: a record of nothing before it is said."""
    last = max((place for place, one in enumerate(program) if one.kind != machines.NOTHING), default=0)
    return "; ".join(SAID[one.kind] % one._asdict() for one in program[:last + 1])


def state_lines(moves, programs, state):
    """What a state runs, and where it leads: the target of most bytes last."""
    lines = ["    runs: " + program_words(machines.instructions(programs, state))]
    leads = {}
    for value in range(256):
        leads.setdefault(machines.target(moves, state, value), set()).add(value)
    common = max(leads, key=lambda target: (len(leads[target]), -target))
    lines += ["    on %s: state %d" % (item(leads[target]), target) for target in sorted(leads) if target != common]
    return lines + ["    on %s: state %d" % (ALL if len(leads) == 1 else OTHERS, common)]


# Read

Misfit = namedtuple("Misfit", "line column said")  # both count from 1
# A state as it is read. Each of its ways is bytes, the target's name and place, line and column; so
# is the rest, for the other bytes.
State = namedtuple("State", "name line column program ways rest")


class Unfit(Exception):
    """A place of a line, counted from 0, with what is said of it."""


def either(words):
    """What would fit, as a person says it."""
    return words[0] if len(words) == 1 else "%s or %s" % (", ".join(words[:-1]), words[-1])


class Line:
    """A line that is read from its front."""

    def __init__(self, text):
        self.text, self.at = text, 0

    def blanks(self):
        while self.text[self.at:self.at + 1] in (" ", "\t", "\r"):
            self.at += 1

    def ends(self):
        self.blanks()
        return self.at == len(self.text) or self.text[self.at] == "#"

    def there(self):
        """What stands here, as a person says it."""
        if self.at == len(self.text):
            return "the line ends here"
        word = re.match(r"\w[\w-]*|.", self.text[self.at:], re.ASCII).group()
        return ("'%s' is here" % word) if 32 < ord(word[0]) < 127 else "hex %02X is here" % ord(word[0])

    def unfit(self, *fits):
        raise Unfit(self.at, "%s; %s would fit" % (self.there(), either(fits)))

    def maybe(self, word):
        """Passes over a word or sign where it stands here."""
        self.blanks()
        end = self.at + len(word)
        if not self.text.startswith(word, self.at) or (word[-1].isalnum() and re.match(r"[A-Za-z0-9_-]", self.text[end:])):
            return False
        self.at = end
        return True

    def one_of(self, *words):
        for word in words:
            if self.maybe(word):
                return word
        return self.unfit(*("'%s'" % word for word in words))

    def number(self, most, what):
        self.blanks()
        found = re.match(r"0*([0-9]{1,5})(?![A-Za-z0-9_-])", self.text[self.at:])
        if found is None or int(found.group(1)) > most:
            self.unfit("%s, 0 to %d," % (what, most))
        self.at += found.end()
        return int(found.group(1))

    def name(self):
        self.blanks()
        found = re.match(r"[A-Za-z0-9_-]+", self.text[self.at:])
        if found is None:
            self.unfit("a name, of letters, digits, _ and -,")
        at, self.at = self.at, self.at + found.end()
        return found.group(), at

    def end(self, *fits):
        if not self.ends():
            self.unfit(*fits, "the line's end")


def escape(line):
    """The bytes of an escape, whose \\ has been passed over."""
    found = re.match(r"n|s|x[0-9A-Fa-f]{2}", line.text[line.at:])
    if found is None:
        line.unfit("n, s or x with two hex digits")
    line.at += found.end()
    one = found.group()
    return SPACES if one == "s" else frozenset([10 if one == "n" else int(one[1:], 16)])


def single(line, apart, where):
    """A byte or an escape; `where` says what else would fit."""
    sign_here = line.text[line.at:line.at + 1]
    if sign_here == "\\":
        line.at += 1
        return escape(line)
    if sign_here == "" or ord(sign_here) in apart:
        line.unfit(*where)
    if not 32 <= ord(sign_here) < 127:
        line.unfit("\\x%02X" % ord(sign_here))
    line.at += 1
    return frozenset([ord(sign_here)])


def class_member(line):
    """A byte, an escape, or a range of two single bytes."""
    fits = "a byte other than \\ [ ] ^ -", "an escape"
    begin = line.at
    low = single(line, APART_IN_CLASS, (*fits, "']'"))
    if line.text[line.at:line.at + 1] != "-":
        return low
    if len(low) > 1:
        line.unfit("a byte, an escape or ']'")
    line.at += 1
    high_at = line.at
    high = single(line, APART_IN_CLASS, fits)
    if len(high) > 1:
        raise Unfit(high_at, "\\s is here, which is no single byte; a byte or \\xHH would fit")
    if min(low) > min(high):
        raise Unfit(begin, "this range falls; one that begins with its lower byte would fit")
    return frozenset(range(min(low), min(high) + 1))


def read_class(line):
    """The bytes of a class, whose [ has been passed over."""
    begin = line.at - 1
    other = line.text[line.at:line.at + 1] == "^"
    line.at += other
    found = class_member(line)
    while line.text[line.at:line.at + 1] != "]":
        found |= class_member(line)
    line.at += 1
    if other and found == BYTES:
        raise Unfit(begin, "this class has no byte; one with a byte would fit")
    return BYTES - found if other else found


def read_item(line):
    line.blanks()
    if line.text[line.at:line.at + 1] == "[":
        line.at += 1
        return read_class(line)
    if line.text[line.at:line.at + 1] == ".":
        line.at += 1
        return BYTES
    if line.text[line.at:line.at + 1] == ":" and not re.match(r":[ \t]*:", line.text[line.at:]):
        line.unfit("a byte", "a class [..]", "'every other byte'")
    return single(line, APART, ("a byte other than \\ . [ ] ( ) | * + ? { } ^", "an escape", "a class [..]"))


def read_instruction(line):
    kind = line.one_of("set", "clear", "turn", "lower", "alert", "nothing")
    if kind == "nothing":
        return machines.NOTHING, 0, 0
    if kind == "alert":
        signature = line.number(machines.SIGNATURES - 1, "a signature")
        if not line.maybe("if"):
            return machines.ALERT, 0, signature
        if line.one_of("bit", "counter") == "bit":
            bit = line.number(machines.X_BITS - 1, "a bit")
            line.one_of("is")
            line.one_of("set")
            return machines.ALERT_BIT, bit, signature
        counter = line.number(machines.X_COUNTERS - 1, "a counter")
        line.one_of("is")
        line.one_of("0")
        return machines.ALERT_ZERO, counter, signature
    if line.one_of(*{"set": ("bit", "counter"), "clear": ("bit",)}.get(kind, ("counter",))) == "bit":
        return (machines.SET if kind == "set" else machines.CLEAR), line.number(machines.X_BITS - 1, "a bit"), 0
    counter = line.number(machines.X_COUNTERS - 1, "a counter")
    if kind == "lower":
        return machines.LOWER, counter, 0
    if kind == "turn":
        line.one_of("off")
        return machines.STOP, counter, 0
    line.one_of("to")
    return machines.COUNT, counter, line.number(machines.MOST_NUMBER, "a number")


def read_program(line):
    program = []
    while True:
        line.blanks()
        if len(program) == machines.RECORDS:
            raise Unfit(line.at, "a ninth instruction is here; %d would fit" % machines.RECORDS)
        program.append(read_instruction(line))
        if line.ends():
            return program
        if not line.maybe(";"):
            line.unfit("';'", *(["'if'"] if program[-1][0] == machines.ALERT else []), "the line's end")


def read_way(line):
    """The bytes of a line `on`, or ALL or OTHERS, with their place; and the target's name with its
    place."""
    if line.text[line.at:line.at + 1] not in (" ", "\t"):
        line.unfit("a space")
    line.blanks()
    at = line.at
    if re.match(r"every[ \t]", line.text[line.at:]):
        line.maybe("every")
        values = ALL if line.one_of("other", "byte") == "byte" else OTHERS
        if values == OTHERS:
            line.one_of("byte")
    else:
        values = read_item(line)
    if not line.maybe(":"):
        line.unfit("':'")
    line.one_of("state")
    target = line.name()
    line.end()
    return values, at, target


class Reader:
    """What has been read of a file of words."""

    def __init__(self):
        self.states, self.lines, self.faults = [], {}, []

    def begin(self, number, line):
        name, at = line.name()
        place = len(self.states)
        self.states.append(State(name, number, at + 1, [], [], []))
        if self.lines.setdefault(name, number) != number:
            raise Unfit(at, "a state has the name %s in line %d; another name would fit" % (name, self.lines[name]))
        if name.isdigit() and name != str(place):
            raise Unfit(at, "the states before it are %d; %d or a name with a letter would fit" % (place, place))
        if place == machines.X_STATES:
            raise Unfit(at, "%d states are before it, the most that there may be" % machines.X_STATES)
        line.end()

    def inside(self, at):
        """The state that a line belongs to; where the line that began it does not fit, that is said
        there alone."""
        if not self.states and self.faults:
            return State("", 0, 0, [], [], [])
        if not self.states:
            raise Unfit(at, "no state has begun; 'state' and a name would fit")
        return self.states[-1]

    def read(self, number, line):
        if line.ends():
            return
        at = line.at
        word = line.one_of("state", "runs:", "on")
        if word == "state":
            self.begin(number, line)
        elif word == "runs:":
            state = self.inside(at)
            if state.program:
                raise Unfit(at, "state %s runs something already; 'on' or 'state' would fit" % state.name)
            state.program.extend(read_program(line))
        else:
            state = self.inside(at)
            values, at, target = read_way(line)
            (state.rest if values in (ALL, OTHERS) else state.ways).append((values, target, number, at + 1))

    def check_ways(self, state, places):
        """A state's moves: the number of the target for each byte, or what is wrong with them."""
        leads, rest = {}, state.rest
        for values, (name, at), number, column in state.ways + rest:
            if name not in places:
                self.faults.append(Misfit(number, at + 1, "there is no state %s; the name of a state would fit" % name))
        for values, (name, _), number, column in state.ways:
            twice = sorted(value for value in values if value in leads)
            if twice:
                self.faults.append(Misfit(number, column, "%s has its line already, line %d; other bytes would fit"
                                          % (item(frozenset(twice)), leads[twice[0]][1])))
            leads.update((value, (name, number)) for value in values if value not in leads)
        for _, _, number, column in rest[1:]:
            self.faults.append(Misfit(number, column, "line %d has the other bytes already; a byte or a class would fit" % rest[0][2]))
        left = BYTES - set(leads)
        if left and not rest:
            self.faults.append(Misfit(state.line, state.column, "no line of state %s has %s; 'on every other byte: state ..' would fit"
                                      % (state.name, item(left))))
        if rest and not left:
            self.faults.append(Misfit(rest[0][2], rest[0][3], "each byte has its line already; no such line would fit"))
        elif rest and rest[0][0] == ALL and state.ways:
            self.faults.append(Misfit(rest[0][2], rest[0][3], "some bytes have lines of their own; 'every other byte' would fit"))
        return [places.get(leads[value][0] if value in leads else rest[0][1][0] if rest else None, 0) for value in range(256)]

    def machine(self):
        """Moves and programs; faults that show now are put to the others."""
        places = {state.name: place for place, state in enumerate(self.states)}
        moves = b"".join(target.to_bytes(2, "little") for state in self.states for target in self.check_ways(state, places))
        records = [state.program + [(0, 0, 0)] * (machines.RECORDS - len(state.program)) for state in self.states]
        programs = b"".join(bytes([kind, which]) + number.to_bytes(2, "little") for program in records for kind, which, number in program)
        return moves, programs


def read(data):
    """Moves, programs and names of the automaton that the bytes of a file say; and all faults, in the
    order of their places."""
    reader = Reader()
    lines = data.decode("latin-1").split("\n")
    for number, text in enumerate(lines, 1):
        try:
            reader.read(number, Line(text))
        except Unfit as unfit:
            at, said = unfit.args
            reader.faults.append(Misfit(number, at + 1, said))
    if not reader.states and not reader.faults:
        reader.faults.append(Misfit(len(lines), len(lines[-1]) + 1, "the file ends here; 'state' and a name would fit"))
    moves, programs = (b"", b"") if reader.faults else reader.machine()
    return moves, programs, [state.name for state in reader.states], sorted(reader.faults)
