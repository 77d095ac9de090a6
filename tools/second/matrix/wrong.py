"""Wrong versions of the rules of the bit matrix and its feed."""

from second.list.streams import FEEDS

RULES = ["second.matrix.model"]
BEHIND = []

# Where the matrix feed looks for 8, and where it finds a set.
LOOKS_FOR_8 = ("    refusal = feed_refusal(data, record, start, piece)\n"
               "    if not refusal and wrong_matrix(data, matrix):\n")
FINDS_SET = "(state * BYTE_VALUES + byte)"

WRONG = [
    ("matrix: a state more than the highest", [("max(automaton(data).named) + 1", "max(automaton(data).named) + 2")]),
    ("matrix: as many states as are named", [("max(automaton(data).named) + 1", "len(automaton(data).named)")]),
    ("matrix: the highest by the starts alone", [("max(automaton(data).named) + 1", "max(automaton(data).starts) + 1")]),
    ("matrix: the sets of a byte stand together", [
        ("for state in range(matrix_states(data)) for byte in range(BYTE_VALUES)",
         "for byte in range(BYTE_VALUES) for state in range(matrix_states(data))"),
        (FINDS_SET, "(byte * states + state)")]),
    ("matrix: more bytes than are needed pass", [("len(matrix) != matrix_states", "len(matrix) < matrix_states")]),
    ("matrix: fewer bytes than are needed pass", [("len(matrix) != matrix_states", "len(matrix) > matrix_states")]),
    ("filler: a refusal clears the bytes", [("matrix if refusal else matrix_of(data)", "bytes(len(matrix)) if refusal else matrix_of(data)")]),
    ("filler: what stands there stays in the sets", [
        ("matrix if refusal else matrix_of(data)",
         "matrix if refusal else bytes(a | b for a, b in zip(matrix, matrix_of(data)))")]),
    ("filler: byte 255 is left out", [
        ("nfa.step(frozenset([state]), byte))\n", "nfa.step(frozenset([state]), byte) if byte < 255 else frozenset())\n")]),
    ("filler: 8 before 1 to 3", [
        ("    refusal = list_refusal(data)\n    if not refusal and wrong_matrix(data, matrix):\n        refusal = 8\n    return Filled",
         "    refusal = list_refusal(data)\n    if len(matrix) % ROW_SIZE or not refusal and wrong_matrix(data, matrix):\n        refusal = 8\n    return Filled")]),
    ("matrix feed: 8 is not looked for in an empty piece", [(LOOKS_FOR_8, LOOKS_FOR_8.replace("not refusal and", "piece and not refusal and"))]),
    ("matrix feed: 8 before 4", [(LOOKS_FOR_8, LOOKS_FOR_8.replace("not refusal and", "refusal in (0, 4, 5, 6) and"))]),
    ("matrix feed: the sets of the next state", [(FINDS_SET, "((state + 1) % states * BYTE_VALUES + byte)")]),
    ("matrix feed: the highest has no sets", [("for state in frontier if state < states]", "for state in frontier if state < states - 1]")]),
    ("matrix feed: a state past the highest takes the highest's sets", [
        ("(state * BYTE_VALUES + byte) for state in frontier if state < states]", "(min(state, states - 1) * BYTE_VALUES + byte) for state in frontier]")]),
    ("matrix feed: rows by the states that have sets", [("in places), len(frontier)", "in places), len(places)")]),
    ("matrix feed: rows by the sets that are not empty", [
        ("in places), len(frontier)", "in places), sum(any(matrix[at:at + SET_SIZE]) for at in places)")]),
    ("matrix feed: the last word of a frontier counts no rows", [
        ("in places), len(frontier)", "in places), sum(state < 8 * SET_SIZE - 64 for state in frontier)")]),
    ("matrix feed: it goes by the list", [
        ("return union(unpack_set(matrix[at:at + SET_SIZE]) for at in places), len(frontier)",
         "return automaton(data).step(frontier, byte), len(frontier)")]),
    ("matrix feed: the sets are joined to the frontier before", [
        ("return union(unpack_set(matrix[at:at + SET_SIZE]) for at in places), len(frontier)",
         "return frontier | union(unpack_set(matrix[at:at + SET_SIZE]) for at in places), len(frontier)")]),
]

VERSIONS = [([FEEDS], "mx", WRONG)]
