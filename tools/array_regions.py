"""Cases of expressions over inputs, and of the regions and nodes that others need, for `array_table.py`, which gives
the numbers of their nodes. What a region holds is NumPy's. Which regions are needed, which nodes are, and what of a
short file is missing is counted by hand: from the last node to the first, the least box that has all elements which the
needed boxes of later nodes use."""

QUOTIENT = "((x := given([4, 0, -6])) + x) // x"

# Expressions, the blocks of their inputs, and a region of the last node, by a start and a length for each axis.
PARTS = [
    (QUOTIENT, [[4, 0, -6]], [(2, 1)]),
    (QUOTIENT, [[4, 0, -6]], [(1, 2)]),
    (QUOTIENT, [[4, 0, -6]], [(1, 0)]),
    ("given([[1, 2, 3], [4, 5, 6]]).T + given([10, 20])", [[[1, 2, 3], [4, 5, 6]], [10, 20]], [(1, 2), (0, 2)]),
    ("given(7) * 6", [7], []),
]

ALL = [(QUOTIENT, [[4, 0, -6]]), ("given([[1, 2]]) - 1", [[[1, 2]]])]

FIRST, SECOND, ROWS = [4, 0, 6], [7, 8, 9], [[10, 20, 30], [40, 50, 60]]

# Both files one after another, 4, 0, 6, 7, 8 and 9, from the last but one on backwards, and 24 by those.
BACKWARDS = f"full((1,), 24) // concatenate([given({FIRST}), given({SECOND})], 0)[-2::-1]"
TURNED = f"given({ROWS}).T"

# Expressions, a region, two files with how many bytes are missing at the end of each, the read that fails, and the
# refusal, or nothing where the region is given.
FILES = [
    # All but the zero.
    (BACKWARDS, [(0, 3)], [(FIRST, 0), (SECOND, 0)], None, None),
    # The zero is the third of 7, 6, 0 and 4.
    (BACKWARDS, [(1, 4)], [(FIRST, 0), (SECOND, 0)], None, None),
    # 24 by 4 needs the first file alone, by one read, so that no second one can fail.
    (BACKWARDS, [(4, 1)], [(FIRST, 0), (SECOND, 9)], None, None),
    (BACKWARDS, [(4, 1)], [(FIRST, 0), (SECOND, 0)], 1, None),
    (BACKWARDS, [(4, 1)], [(FIRST, 0), (SECOND, 0)], 0, "read fault"),
    (BACKWARDS, [(1, 2)], [(FIRST, 0), (SECOND, 0)], 1, "read fault"),
    # The second file's first two elements are 16 bytes, of which it has 15.
    (BACKWARDS, [(0, 2)], [(FIRST, 0), (SECOND, 9)], None, "truncated: has 15, needs 16"),
    # Its first element is there.
    (BACKWARDS, [(1, 1)], [(FIRST, 0), (SECOND, 9)], None, None),
    # Every second element, 4, 6 and 8, of which the last two.
    (f"concatenate([given({FIRST}), given({SECOND})], 0)[::2]", [(1, 2)], [(FIRST, 0), (SECOND, 0)], None, None),
    # Columns become rows; the last element, which is missing, isn't asked for.
    (TURNED, [(0, 2), (0, 2)], [(ROWS, 8), (SECOND, 0)], None, None),
    (TURNED, [(2, 1), (1, 1)], [(ROWS, 8), (SECOND, 0)], None, "truncated: has 40, needs 48"),
]

# Expressions, a region of the last node, and what it needs of each node, or nothing.
NEEDS = [
    # Every second element backwards is 5, 3 and 1, of which the last two are asked for.
    ("concatenate([full((4,), 1), full((2,), 1)], 0)[::-2]", [(1, 2)], [[(1, 3)], None, [(1, 3)], [(1, 2)]]),
    # A region over both operands.
    ("concatenate([full((4,), 1), full((2,), 1)], 0)", [(3, 2)], [[(3, 1)], [(0, 1)], [(3, 2)]]),
    ("full((2, 3), 1).T", [(2, 1), (0, 2)], [[(0, 2), (2, 1)], [(2, 1), (0, 2)]]),
    # An axis of length 1 is stretched.
    ("full((3, 1), 1) + full((4,), 1)", [(1, 2), (2, 1)], [[(1, 2), (0, 1)], [(2, 1)], [(1, 2), (2, 1)]]),
    # The elements 0, 2, 4 and 0, 1, 2: of the middle ones, 2 and 1, the box has both.
    ("(x := full((6,), 1))[::2] + x[:3:1]", [(1, 1)], [[(1, 2)], [(1, 1)], [(1, 1)], [(1, 1)]]),
    # The elements 0 and 5: the box has those between too.
    ("(x := full((6,), 1))[::5] + x[::-5]", [(0, 1)], [[(0, 6)], [(0, 1)], [(0, 1)], [(0, 1)]]),
    # A folded axis is needed whole.
    ("sum(full((2, 3), 1), (1,), 2)", [(1, 1)], [[(1, 1), (0, 3)], [(1, 1)]]),
    # So are paired axes.
    ("tensordot(full((2, 3), 1), full((3, 4), 1), (1,), (0,))", [(1, 1), (2, 2)], [[(1, 1), (0, 3)], [(0, 3), (2, 2)], [(1, 1), (2, 2)]]),
    # No elements need none.
    ("full((3,), 1)[::1]", [(2, 0)], [None, None]),
    # 2^60 ways lead from the last node to the first, and each node is looked at once.
    ("doubled(full((4,), 1), 60)", [(1, 2)], [[(1, 2)]] * 61),
    # Of a ramp and a negation the same.
    ("-ramp((3, 4), 0, 1)", [(1, 1), (0, 4)], [[(1, 1), (0, 4)], [(1, 1), (0, 4)]]),
    # A condition and both choices.
    ("where(full((2, 1), 1), full((3,), 1), 5)", [(0, 1), (1, 2)], [[(0, 1), (0, 1)], [(1, 2)], [], [(0, 1), (1, 2)]]),
]

# Two arrays, each negated, and the first once more.
NEGATIONS = "(x := full((), 1), y := full((), 1), z := -x, -y, -z)"

# Expressions, nodes, and those that are needed for them.
REACHED = [(NEGATIONS, [4], [0, 2, 4]), (NEGATIONS, [3], [1, 3]), (NEGATIONS, [1, 2], [0, 1, 2]), (NEGATIONS, [], [])]
