"""The commands of the split table and its feed, and their lines; and those of the builder.

The builder has a stream of its own, because a lent list of rows has 8 MiB. Of each list that was
lent its line has a digest of the bytes used, and how many of the others are 0 and how many are still
255, which they all were.
"""

from second.list.tape import Lists
from second.sizes import BYTE_VALUES, MOST_PARTS, MOST_SPLITS, SET_SIZE, SPLIT_SIZE
from second.table import model as tables
from second.tape import BEYOND, Ask, Load, Tape, digest

# The longest blocks of a table. Of rows that is the most parts on four classes.
MOST_TABLE = tables.Table(BYTE_VALUES + BEYOND, MOST_PARTS * SET_SIZE + BEYOND,
                          4 * MOST_PARTS * SET_SIZE + BEYOND, MOST_SPLITS * SPLIT_SIZE + BEYOND)


class Tables(Lists):
    LOADS = {"T": Load("table", tables.EMPTY, MOST_TABLE)}
    ASKS = {"k": Ask("check_table", "8"), "s": Ask("split_feed", "884b")}

    def load_table(self, table):
        self.load("T", table)

    def check_table(self, bound):
        return self.answer("k", [bound], [tables.table_refusal(self.list, self.table, bound)])

    def split_feed(self, bound, start, words, piece):
        return self.fed("s", [bound, start, words, piece],
                        lambda *flow: [tables.split_feed(self.list, self.table, bound, *flow)])[0]


class Fills(Tape):
    """A tape of one command: a list, and the lengths of the lists that are lent to be filled."""

    LENT = ()  # the lengths that suffice

    def filled(self, data, lengths):
        """The refusal, and what is in the front of each lent list, by the rules."""
        raise NotImplementedError

    def ask(self, data, *lengths):
        lengths = lengths or self.LENT
        refusal, made = self.filled(data, lengths)
        fronts = made or [b""] * len(lengths)
        values = [refusal, *map(len, fronts)]
        for front, length in zip(fronts, lengths):
            others = length - len(front)
            values += [digest(front), *((others, 0) if refusal in (0, 16) else (0, others))]
        self.answer(self.ALONE, [data, *lengths], values)
        return refusal, made

    def lacks(self, needed):
        """Whether some refusal is not yet there so often."""
        return any(self.counts.get((self.ALONE, refusal), 0) < count for refusal, count in needed.items())


class Builds(Fills):
    ASKS = {"b": Ask("ask", "b4444")}
    ALONE = "b"
    LENT = tables.LENT

    def filled(self, data, lengths):
        return tables.build(data, lengths)
