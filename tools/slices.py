"""What Python's own rules give for slices of one axis, as lines of the program array_table: `lines` gives each line and
its answer. `array_table.py` writes them."""

MIN, MAX = -(2**63), 2**63 - 1

RANGES = [
    # (length, start, stop, step)
    (5, None, None, None), (5, 1, 3, None), (5, 0, 5, None), (5, 2, 2, None), (5, 3, 1, None),
    (5, -2, None, None), (5, None, -2, None), (5, -3, -1, None), (5, -9, 9, None), (5, 7, 9, None),
    (5, 5, None, None), (5, -5, None, None), (5, -6, -5, None), (5, None, 0, None),
    (5, None, None, 2), (5, 1, None, 2), (5, 0, 4, 3), (5, 4, 0, 2), (5, 0, 5, 5), (5, 0, 5, 6),
    (6, None, None, 4), (7, 1, 6, 3), (7, 1, 7, 3), (7, -7, -1, 5),
    (5, None, None, -1), (5, None, None, -2), (5, 3, None, -1), (5, None, 1, -1), (5, 4, 0, -1),
    (5, 9, -9, -1), (5, -1, -6, -2), (5, 1, 3, -1), (5, 0, None, -1), (5, -5, None, -1), (5, -6, None, -1),
    (5, 3, 3, -1), (7, 6, 0, -3), (7, 5, None, -4), (6, 9, 1, -2),
    (0, None, None, None), (0, None, None, -1), (0, 1, 4, None), (0, -1, None, 2), (0, 3, -4, -2),
    (1, None, None, -1), (1, -1, None, None), (1, 0, 1, 7),
    (5, 0, 5, MAX), (5, 4, None, -MAX), (5, None, None, MIN), (5, 2, None, MIN), (5, MIN, MAX, 1),
    (5, MAX, MIN, -1), (5, MIN, None, None), (5, None, MIN, -1), (5, MAX, None, 1), (5, MIN, MAX, MAX),
    (2**31, None, None, None), (2**31, None, None, -1), (2**31, 1, -1, 2), (2**31, -2, None, -(2**31)),
    (2**31, 2**31 - 1, None, MIN), (2**31, None, None, 3), (2**31, -1, 0, -7),
]

INDEXES = [(5, 0), (5, 4), (5, -1), (5, -5), (5, 5), (5, -6), (0, 0), (0, -1), (5, MAX), (5, MIN), (2**31, -(2**31)), (1, 0)]

ZERO_STEPS = [(5, None, 3), (0, None, None)]


def maybe(n):
    return "-" if n is None else str(n)


def taken(length, start, stop, step):
    steps = range(*slice(start, stop, step).indices(length))
    first = steps[0] if len(steps) else 0
    return f" start {first} step {1 if step is None else step} count {len(steps)}"


def element(length, index):
    try:
        return f" start {range(length)[index]} step 1 count 1"
    except IndexError:
        return f" refused, shape: index {index} of length {length}"


def lines():
    for length, start, stop, step in RANGES:
        yield f"slice {length} {maybe(start)} {maybe(stop)} {maybe(step)}", taken(length, start, stop, step)
    for length, start, stop in ZERO_STEPS:
        yield f"slice {length} {maybe(start)} {maybe(stop)} 0", " refused, shape: step 0"
    for length, index in INDEXES:
        yield f"index {length} {index}", element(length, index)
