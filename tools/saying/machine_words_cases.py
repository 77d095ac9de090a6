"""Cases for the words of an automaton with bits and counters: broken files, each with its place, and random automata in words and in bytes."""

from saying import machine_words
from saying.machine_words import item
from second.machine import model as machines

ON = "on every byte: state a\n"
A = "state a\n" + ON

# Broken files, with @ at the place that does not fit, and a part of what is said of it.
BROKEN = [
    ("@", "the file ends here; 'state' and a name would fit"),
    ("# nothing but this\n\n@", "the file ends here; 'state' and a name would fit"),
    ("@stat a\n" + ON, "'stat' is here; 'state', 'runs:' or 'on' would fit"),
    ("@State a\n" + ON, "'State' is here; 'state', 'runs:' or 'on' would fit"),
    ("@statea\n" + ON, "'statea' is here; 'state', 'runs:' or 'on' would fit"),
    ("state@\n" + ON, "the line ends here; a name, of letters, digits, _ and -, would fit"),
    ("state @[a]\n" + ON, "'[' is here; a name"),
    ("state @\xe9\n" + ON, "hex E9 is here; a name"),
    ("state a @b\n" + ON, "'b' is here; the line's end would fit"),
    ("state a@:\n" + ON, "':' is here; the line's end would fit"),
    ("state @1\n" + ON, "the states before it are 0; 0 or a name with a letter would fit"),
    ("state 0\non every byte: state 0\nstate @00\non every byte: state 0\n", "the states before it are 1; 1 or a name"),
    (A + "state @a\n" + ON, "a state has the name a in line 1; another name would fit"),
    ("".join("state s%d\non every byte: state s0\n" % n for n in range(1024)) + "state @s1024\non every byte: state s0\n", "1024 states are before it"),
    ("@runs: nothing\n" + A, "no state has begun; 'state' and a name would fit"),
    ("  @on every byte: state a\n" + A, "no state has begun; 'state' and a name would fit"),
    ("state a\n@runs nothing\n" + ON, "'runs' is here; 'state', 'runs:' or 'on' would fit"),
    ("state a\nruns:@\n" + ON, "the line ends here; 'set', 'clear', 'turn', 'lower', 'alert' or 'nothing' would fit"),
    ("state a\nruns: @# none\n" + ON, "'#' is here; 'set', 'clear',"),
    ("state a\nruns: nothing\n@runs: nothing\n" + ON, "state a runs something already; 'on' or 'state' would fit"),
    ("state a\nruns: @raise counter 0\n" + ON, "'raise' is here; 'set',"),
    ("state a\nruns: set @bits 0\n" + ON, "'bits' is here; 'bit' or 'counter' would fit"),
    ("state a\nruns: set bit@\n" + ON, "the line ends here; a bit, 0 to 63, would fit"),
    ("state a\nruns: set bit @64\n" + ON, "'64' is here; a bit, 0 to 63, would fit"),
    ("state a\nruns: set bit @0x3\n" + ON, "'0x3' is here; a bit, 0 to 63, would fit"),
    ("state a\nruns: set bit @-1\n" + ON, "'-' is here; a bit, 0 to 63, would fit"),
    ("state a\nruns: clear @counter 3\n" + ON, "'counter' is here; 'bit' would fit"),
    ("state a\nruns: clear bit @99999999999999999999\n" + ON, "a bit, 0 to 63, would fit"),
    ("state a\nruns: set counter @16 to 3\n" + ON, "'16' is here; a counter, 0 to 15, would fit"),
    ("state a\nruns: set counter 3 @= 7\n" + ON, "'=' is here; 'to' would fit"),
    ("state a\nruns: set counter 3@\n" + ON, "the line ends here; 'to' would fit"),
    ("state a\nruns: set counter 3 to @65536\n" + ON, "'65536' is here; a number, 0 to 65535, would fit"),
    ("state a\nruns: set counter 3 to @off\n" + ON, "'off' is here; a number, 0 to 65535, would fit"),
    ("state a\nruns: turn @bit 3 off\n" + ON, "'bit' is here; 'counter' would fit"),
    ("state a\nruns: turn counter 3 @on\n" + ON, "'on' is here; 'off' would fit"),
    ("state a\nruns: lower @bit 3\n" + ON, "'bit' is here; 'counter' would fit"),
    ("state a\nruns: lower counter 3 @by 2\n" + ON, "'by' is here; ';' or the line's end would fit"),
    ("state a\nruns: alert @256\n" + ON, "'256' is here; a signature, 0 to 255, would fit"),
    ("state a\nruns: alert @if bit 3 is set\n" + ON, "'if' is here; a signature, 0 to 255, would fit"),
    ("state a\nruns: alert 7 @when bit 3 is set\n" + ON, "'when' is here; ';', 'if' or the line's end would fit"),
    ("state a\nruns: alert 7 if @state\n" + ON, "'state' is here; 'bit' or 'counter' would fit"),
    ("state a\nruns: alert 7 if bit 3 is @clear\n" + ON, "'clear' is here; 'set' would fit"),
    ("state a\nruns: alert 7 if bit 3 @set\n" + ON, "'set' is here; 'is' would fit"),
    ("state a\nruns: alert 7 if counter 3 is @1\n" + ON, "'1' is here; '0' would fit"),
    ("state a\nruns: alert 7 if counter 3 is @00\n" + ON, "'00' is here; '0' would fit"),
    ("state a\nruns: alert 7;@\n" + ON, "the line ends here; 'set',"),
    ("state a\nruns: alert 7@, alert 8\n" + ON, "',' is here; ';', 'if' or the line's end would fit"),
    ("state a\nruns: " + 8 * "nothing; " + "@nothing\n" + ON, "a ninth instruction is here; 8 would fit"),
    ("state a\non@\n", "the line ends here; a space would fit"),
    ("state a\non @: state a\n", "':' is here; a byte, a class [..] or 'every other byte' would fit"),
    ("state a\non x@y: state a\n" + ON, "'y' is here; ':' would fit"),
    ("state a\non @*: state a\n" + ON, "'*' is here; a byte other than \\ . [ ] ( ) | * + ? { } ^, an escape or a class [..] would fit"),
    ("state a\non @(x): state a\n" + ON, "'(' is here; a byte other than"),
    ("state a\non \\@t: state a\n" + ON, "'t' is here; n, s or x with two hex digits would fit"),
    ("state a\non \\@x0: state a\n" + ON, "'x0' is here; n, s or x with two hex digits would fit"),
    ("state a\non @\xff: state a\n" + ON, "hex FF is here; \\xFF would fit"),
    ("state a\non [@]: state a\n" + ON, "']' is here; a byte other than \\ [ ] ^ -, an escape or ']' would fit"),
    ("state a\non [^@]: state a\n" + ON, "']' is here; a byte other than"),
    ("state a\non [a@\n" + ON, "the line ends here; a byte other than"),
    ("state a\non [a@^b]: state a\n" + ON, "'^' is here; a byte other than"),
    ("state a\non [@z-a]: state a\n" + ON, "this range falls; one that begins with its lower byte would fit"),
    ("state a\non [a-@]: state a\n" + ON, "']' is here; a byte other than \\ [ ] ^ - or an escape would fit"),
    ("state a\non [a-@\\s]: state a\n" + ON, "\\s is here, which is no single byte; a byte or \\xHH would fit"),
    ("state a\non [\\s@-z]: state a\n" + ON, "'-' is here; a byte, an escape or ']' would fit"),
    ("state a\non [@\t]: state a\n" + ON, "hex 09 is here; \\x09 would fit"),
    ("state a\non @[^\\x00-\\xFF]: state a\n" + ON, "this class has no byte; one with a byte would fit"),
    ("state a\non x: @a\n" + ON, "'a' is here; 'state' would fit"),
    ("state a\non x: state@\n" + ON, "the line ends here; a name"),
    ("state a\non x: state a @y\n" + ON, "'y' is here; the line's end would fit"),
    ("state a\non every @one: state a\n", "'one' is here; 'other' or 'byte' would fit"),
    ("state a\non every other @bytes: state a\n", "'bytes' is here; 'byte' would fit"),
    ("state a\non every byte @state a\n", "'state' is here; ':' would fit"),
    ("state a\non every byte: state @b\n", "there is no state b; the name of a state would fit"),
    ("state a\non x: state @0\non every other byte: state a\n", "there is no state 0; the name of a state would fit"),
    ("state a\non [x-z]: state a\non @[w-y]: state a\non every other byte: state a\n", "[xy] has its line already, line 2; other bytes would fit"),
    ("state a\non x: state a\non @x: state a\non every other byte: state a\n", "x has its line already, line 2; other bytes would fit"),
    ("state @a\non [^x]: state a\n", "no line of state a has x; 'on every other byte: state ..' would fit"),
    (A + "state @b\nruns: alert 3\n", "no line of state b has .; 'on every other byte: state ..' would fit"),
    ("state a\non x: state a\non @every byte: state a\n", "some bytes have lines of their own; 'every other byte' would fit"),
    ("state a\non .: state a\non @every other byte: state a\n", "each byte has its line already; no such line would fit"),
    ("state a\non every byte: state a\non @every byte: state a\n", "line 2 has the other bytes already; a byte or a class would fit"),
    ("# an automaton with bits and counters, of 65 states: it passes\n" + A + "@and 1 state more, which --all shows\n", "'and' is here; 'state', 'runs:' or 'on' would fit"),
]


def broken():
    """The bytes of each broken file, its line and column, and what is said."""
    for marked, said in BROKEN:
        before = marked.split("@")[0]
        line = before.count("\n") + 1
        yield marked.replace("@", "", 1).encode("latin-1"), line, len(before) - (before.rfind("\n") + 1) + 1, said


# Random automata

def instruction(dice):
    kind = dice.below(9)
    which = dice.pick([0, 1, 15 if kind in machines.ON_COUNTERS else 63]) if kind in machines.ON_BITS | machines.ON_COUNTERS else 0
    number = dice.pick([0, 1, 255, dice.below(256)]) if kind in machines.ALERTS else dice.pick([0, 1, 65535, dice.below(65536)]) if kind == machines.COUNT else 0
    return machines.Instruction(kind, which, number)


def way(dice, states):
    """The targets of a state: one for most bytes, runs of bytes and single ones for others, or any at all."""
    targets = [dice.below(states)] * 256
    if dice.chance(10):
        return [dice.below(states) for _ in range(256)]
    for _ in range(dice.below(7)):
        low = dice.below(256)
        for byte in range(low, min(256, low + dice.pick([1, 1, 2, 3, 26, 200]))):
            targets[byte] = (low * 7 + states) % states
    if dice.chance(20):
        target = dice.below(states)
        targets = [target if byte in machine_words.SPACES else one for byte, one in enumerate(targets)]
    return targets


def machine(dice, states):
    moves = b"".join(target.to_bytes(2, "little") for _ in range(states) for target in way(dice, states))
    programs = b""
    for _ in range(states):
        program = [instruction(dice) if dice.chance(60) else machines.Instruction(0, 0, 0) for _ in range(dice.below(9))]
        data = b"".join(bytes([one.kind, one.which]) + one.number.to_bytes(2, "little") for one in program)
        programs += data + bytes(machines.X_PROGRAM_SIZE - len(data))
    return moves, programs


def space(dice):
    return dice.pick([" ", "  ", "\t", " \t "])


def wordy_item(dice, values):
    """Bytes in one of the ways in which they can be written."""
    if dice.chance(40):
        return item(values)
    out = ""
    for low, high in machine_words.runs(values):
        if high > low and dice.chance(50):
            out += "\\x%02x-\\x%02X" % (low, high)
        else:
            out += "".join(dice.pick([machine_words.sign(value, machine_words.APART_IN_CLASS), "\\x%02X" % value]) for value in range(low, high + 1))
    return "[%s]" % out


def state_words(dice, names, moves, programs, state):
    """A state in words that a person might have written: lines in any order, classes cut in two, blanks and remarks."""
    lines = []
    program = machines.instructions(programs, state)
    if any(one.kind for one in program) or dice.chance(50):
        lines.append("runs:" + machine_words.program_words(program).replace("; ", dice.pick([";", " ; ", "; "])).replace(" ", space(dice)))
    leads = {}
    for value in range(256):
        leads.setdefault(machines.target(moves, state, value), set()).add(value)
    rest = dice.pick(sorted(leads)) if dice.chance(90) else None
    for target, values in leads.items():
        part = frozenset(value for value in values if dice.chance(50)) if dice.chance(30) else frozenset()
        for one in (part, frozenset(values) - part):
            if one and target != rest:
                lines.append("on" + space(dice) + wordy_item(dice, one) + dice.pick(["", " "]) + ":" + space(dice) + "state " + names[target])
    if rest is not None:
        words = machine_words.OTHERS if len(leads) > 1 or dice.chance(50) else machine_words.ALL
        lines.append("on %s: state %s" % (words, names[rest]))
    lines = ["state %s" % names[state]] + dice.shuffled(lines)
    return [space(dice) * dice.below(2) + line + dice.pick(["", " ", " # a remark", "\r"]) for line in lines] + [""] * dice.below(2)


def wordy(dice, moves, programs):
    states = len(moves) // machines.X_MOVES_SIZE
    names = dice.shuffled(["s%d" % state for state in range(states)]) if dice.chance(70) else [str(state) for state in range(states)]
    return "\n".join(line for state in range(states) for line in state_words(dice, names, moves, programs, state)).encode("latin-1")
