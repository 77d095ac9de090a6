"""The ends of matches beside those of PCRE2, on random texts inside the grammar that both read, and
random bytes: every k such that some match ends at k.

The second program's ends are compared, and with a program also those of that one, which is started
once. It reads, for each case, a length of four bytes, low byte first, and a text, and the same of some
bytes; and it writes a line with the ends, or `refused` and the number.
"""

import ctypes
import ctypes.util
import subprocess

from second.dice import Dice
from second.text import model as texts
from second.text.drawn import good_text, piece_of

SEED = 20261118
PIECES = 4
DOTALL, NO_AUTO_POSSESS, NO_START_OPTIMIZE, ANCHORED = 0x20, 0x4000, 0x10000, 0x80000000
NO_MATCH = -1


class Pcre:
    """All ends of matches from each start, by PCRE2's matcher that follows all ways at once."""

    def __init__(self, library):
        self.lib = library
        pointer, size, u32 = ctypes.c_void_p, ctypes.c_size_t, ctypes.c_uint32
        for name, answer, words in (
                ("compile", pointer, [ctypes.c_char_p, size, u32, ctypes.POINTER(ctypes.c_int), ctypes.POINTER(size), pointer]),
                ("match_data_create", pointer, [u32, pointer]),
                ("get_ovector_pointer", ctypes.POINTER(size), [pointer]),
                ("dfa_match", ctypes.c_int, [pointer, ctypes.c_char_p, size, size, u32, pointer, pointer, pointer, size]),
                ("code_free", None, [pointer])):
            function = getattr(library, "pcre2_%s_8" % name)
            function.restype, function.argtypes = answer, words
        self.data = library.pcre2_match_data_create_8(256, None)
        self.space = (ctypes.c_int * 200000)()

    def compiled(self, text):
        """The text as PCRE2 reads it, or None where it is too large there."""
        bound = text[:1] == b"^"
        pattern = (b"^" if bound else b"") + b"(?:" + text[bound:].replace(b"$", rb"\x24") + b")"
        error, at = ctypes.c_int(), ctypes.c_size_t()
        return self.lib.pcre2_compile_8(pattern, len(pattern), DOTALL | NO_AUTO_POSSESS | NO_START_OPTIMIZE,
                                        ctypes.byref(error), ctypes.byref(at), None)

    def ends(self, code, data):
        out = set()
        for start in range(len(data) + 1):
            count = self.lib.pcre2_dfa_match_8(code, data, len(data), start, ANCHORED, self.data, None, self.space, len(self.space))
            assert count > 0 or count == NO_MATCH, count
            pairs = self.lib.pcre2_get_ovector_pointer_8(self.data)
            out.update(pairs[2 * i + 1] for i in range(max(0, count)))
        return sorted(out)


def case(dice):
    text = good_text(dice, depth=dice.pick([1, 2, 3]), most=dice.pick([1, 3, 6]), limit=120)
    return text, [piece_of(dice, dice.below(16)) for _ in range(PIECES)]


def block(data):
    return len(data).to_bytes(4, "little") + data


def drawn(pcre, count):
    """Cases of so many texts, each with some bytes and the ends; and how many texts PCRE2 has no room for."""
    dice, cases, left_out = Dice(SEED), [], 0
    while len(cases) < count * PIECES:
        text, pieces = case(dice)
        code = pcre.compiled(text)
        if code is None:
            left_out += 1
            continue
        for piece in pieces:
            due = pcre.ends(code, piece)
            assert texts.ends(text, piece) == due, (text, piece, due, texts.ends(text, piece))
            cases.append((text, piece, due))
        pcre.lib.pcre2_code_free_8(code)
    return cases, left_out


def asked(program, cases):
    """Asks a program the same."""
    given = b"".join(block(text) + block(piece) for text, piece, _ in cases)
    lines = subprocess.run(program, input=given, stdout=subprocess.PIPE, check=True).stdout.decode().splitlines()
    assert len(lines) == len(cases)
    for line, (text, piece, due) in zip(lines, cases):
        assert line == " ".join(map(str, due)), (text, piece, due, line)


def compare(count, program):
    try:
        pcre = Pcre(ctypes.CDLL(ctypes.util.find_library("pcre2-8") or "libpcre2-8.so.0"))
    except OSError:
        print("pcre: no libpcre2-8; Debian's package libpcre2-8-0 has it")
        return 3
    cases, left_out = drawn(pcre, count)
    if program:
        asked(program, cases)
    print("pcre: %d texts, %d of them with bytes that match, %d ends, all as PCRE2 finds them%s; %d texts are too large for it" % (
        count, len({text for text, _, due in cases if due}), sum(len(due) for _, _, due in cases), " and as the program does" if program else "", left_out))
    return 0
