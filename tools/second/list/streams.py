"""The stream of the list, the table, the matrix and the index: all feeds that go by a list's record."""

from second.dice import make_groups
from second.index import cases as index_cases
from second.index.tape import Indexes
from second.list import cases, examples
from second.list.tape import Lists
from second.matrix import cases as matrix_cases
from second.matrix.tape import Matrices
from second.stream import Stream
from second.table import cases as table_cases
from second.table.tape import Tables

SEED = 20261115
LOADS = {**Lists.LOADS, **Tables.LOADS, **Matrices.LOADS}
GROUPS = [
    cases.worked, cases.lists, cases.longest_lists, cases.list_limits, cases.openings,
    cases.record_limits, cases.plain_flows, cases.crowded_flows, table_cases.good_tables,
    table_cases.crowded_tables, table_cases.faulty_tables, table_cases.one_byte_tables,
    table_cases.harmless_tables, table_cases.wild_tables, cases.long_pieces,
    table_cases.set_sizes, table_cases.largest_tables, table_cases.split_order,
    table_cases.slots_taken, table_cases.fed_order, table_cases.low_and_high,
    table_cases.lengths_of_splits, table_cases.no_split, cases.zero_records, cases.old_content,
    cases.long_pauses, cases.capitals, cases.first_pairs, cases.foreign, table_cases.swaps,
    *matrix_cases.GROUPS, *index_cases.GROUPS,
]


class Feeds(Indexes):
    """The commands of all four."""

    LOADS = {letter: LOADS[letter] for letter in "LTMR"}
    ASKS = {**Lists.ASKS, **Tables.ASKS, **Matrices.ASKS, **Indexes.ASKS}


def make(tape):
    examples.check()
    make_groups(tape, SEED, GROUPS)


FEEDS = Stream(
    "list", "crates/list_replay/stdin", "crates/list_replay/stdout", Feeds, None, make,
    {"c": ("list check", [0, 1, 2, 3]),
     "o": ("opening", [0, 1, 2, 3, 4, 15]),
     "f": ("plain feed", [0, 1, 2, 3, 4, 5, 6]),
     "k": ("table check", [0, 1, 2, 3, 7, 8, 9, 10, 11, 12, 13]),
     "s": ("split feed", [0, 1, 2, 3, 4, 5, 6, 7, 8, 9, 14]),
     "m": ("matrix filler", [0, 1, 2, 3, 8]),
     "x": ("matrix feed", [0, 1, 2, 3, 4, 5, 6, 8]),
     "i": ("index filler", [0, 1, 2, 3, 7, 8, 9, 10, 11, 12, 13]),
     "p": ("prepared feed", [0, 4, 5, 6, 8, 14])})
STREAMS = [FEEDS]
