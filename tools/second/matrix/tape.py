"""The commands of the bit matrix and its feed, and their lines."""

from second.list.tape import Lists
from second.matrix import model as matrices
from second.sizes import ROW_SIZE
from second.tape import BEYOND, Ask, Load, digest, put, resized, sown

MOST_STATES = 8  # of a matrix


def changes(before, after):
    """The parts in which two strings of one length differ, each with its place; two that are less
    than 16 bytes apart are one."""
    parts = []
    lines = (line for line in range(0, len(after), 64)
             if before[line:line + 64] != after[line:line + 64])
    places = (at for line in lines for at in range(line, min(line + 64, len(after))))
    for at in places:
        if before[at] == after[at]:
            continue
        if parts and at - parts[-1][1] < 16:
            parts[-1][1] = at + 1
        else:
            parts.append([at, at + 1])
    return [(first, after[first:end]) for first, end in parts]


class Matrices(Lists):
    """The matrix is what is filled and what a matrix feed goes by. An index stands there too."""

    LOADS = {"M": Load("matrix", b"", MOST_STATES * ROW_SIZE + BEYOND)}
    ASKS = {"N": Ask("change_matrix", "44b"), "S": Ask("sow", "44"), "m": Ask("fill_matrix", ""),
            "x": Ask("matrix_feed", "84b")}

    def load_matrix(self, matrix):
        """By its bytes, or where few of them change by those."""
        assert len(matrix) <= self.LOADS["M"].most
        parts = changes(resized(self.matrix, len(matrix)), matrix) or [(0, b"")]
        if 2 * sum(len(data) + 16 for _, data in parts) >= len(matrix):
            self.load("M", matrix)
        elif matrix != self.matrix:
            for at, data in parts:
                self.change_matrix(len(matrix), at, data)

    def change_matrix(self, length, at, part):
        """It has so many bytes, cut or with zeros behind, and from the place on these."""
        self.command("N", length, at, part)
        self.matrix = put(resized(self.matrix, length), at, part)

    def sow(self, length, seed):
        """The matrix or index becomes so many bytes from a seed."""
        assert length <= self.LOADS["M"].most
        self.command("S", length, seed)
        self.matrix = sown(length, seed)

    def fill_matrix(self):
        answer = matrices.fill_matrix(self.list, self.matrix)
        self.matrix = answer.matrix
        return self.answer("m", [], [answer.refusal, digest(answer.matrix)])

    def matrix_feed(self, start, words, piece):
        return self.fed("x", [start, words, piece],
                        lambda *flow: [matrices.matrix_feed(self.list, self.matrix, *flow)])[0]
