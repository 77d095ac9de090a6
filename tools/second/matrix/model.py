"""The rules of the bit matrix: a set for each state up to the highest that is named, and each byte. Its
filler, and the matrix feed.
"""

from collections import namedtuple
from functools import lru_cache

from second.list.model import (
    automaton, feed_refusal, list_refusal, pack_set, refused, run, union, unpack_set,
)
from second.sizes import BYTE_VALUES, ROW_SIZE, SET_SIZE

Filled = namedtuple("Filled", "refusal matrix")


# The bit matrix: a set for each state up to the highest that is named, and each byte

def matrix_states(data):
    """How many states a list's matrix has."""
    return max(automaton(data).named) + 1


@lru_cache(maxsize=8)
def matrix_of(data):
    nfa = automaton(data)
    return b"".join(pack_set(nfa.step(frozenset([state]), byte))
                    for state in range(matrix_states(data)) for byte in range(BYTE_VALUES))


def wrong_matrix(data, matrix):
    return len(matrix) != matrix_states(data) * ROW_SIZE


def fill_matrix(data, matrix):
    refusal = list_refusal(data)
    if not refusal and wrong_matrix(data, matrix):
        refusal = 8
    return Filled(refusal, matrix if refusal else matrix_of(data))


def matrix_feed(data, matrix, record, start, words, piece):
    refusal = feed_refusal(data, record, start, piece)
    if not refusal and wrong_matrix(data, matrix):
        refusal = 8
    if refusal:
        return refused(refusal, words, record)
    states = matrix_states(data)

    def move(frontier, byte):
        places = [SET_SIZE * (state * BYTE_VALUES + byte) for state in frontier if state < states]
        return union(unpack_set(matrix[at:at + SET_SIZE]) for at in places), len(frontier)

    return run(automaton(data), record, words, piece, move)
