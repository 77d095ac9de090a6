"""The commands of the index and the prepared feed, and their lines; and those of splits with an index
straight from a list, which have a stream of their own, because a lent index has 4 MiB. An index
stands where a matrix does.
"""

from second.index import model as indexes
from second.matrix.tape import Matrices
from second.table.tape import Fills, Tables
from second.tape import Ask, digest


class Indexes(Tables, Matrices):
    ASKS = {"i": Ask("fill", "8"), "p": Ask("prepared_feed", "484b")}

    def fill(self, bound):
        refusal, self.matrix = indexes.fill(self.list, self.table, bound, self.matrix)
        return self.answer("i", [bound], [refusal, digest(self.matrix)])

    def prepared_feed(self, hint, start, words, piece):
        """The answer, and the split that goes with it."""
        return self.fed("p", [hint, start, words, piece], lambda *flow: indexes.prepared_feed(
            self.table.splits, self.matrix, hint, *flow))


class Prepares(Fills):
    ASKS = {"q": Ask("ask", "b44")}
    ALONE = "q"
    LENT = indexes.LENT

    def filled(self, data, lengths):
        return indexes.prepare(data, lengths)
