"""Lines of the program array_table on shapes, chunks, elements, blocks, lists and the order of storage, with their
answers: `lines` gives them, and `array_table.py` writes them. Shapes, indexes, elements, blocks and storage are NumPy's.
Chunks follow Dask's page on them. Where something is refused NumPy must refuse it too, or the rule is this project's own;
the words are the program's."""

import math

import numpy as np

MIN, MAX = -(2**63), 2**63 - 1
LARGE = 2**31

SHAPES = [(), (3,), (2, 3), (2, 3, 4), (65536, 32768), (LARGE, LARGE, LARGE, 0), (0,) * 8, (LARGE,), (1, 0, 7), (1,) * 8]

# Shapes that are none, and the quantity that passes its limit.
NO_SHAPES = [
    ((4294967296,) + (1,) * 8, "axes"), ((0,) * 9, "axes"), ((0, LARGE + 1), "elements"), ((65536, 32769), "elements"),
    ((LARGE, LARGE, LARGE), "elements"), ((2**64 - 1, 2), "elements"),
]

BROADCASTS = [
    [(3, 1), (1, 4)], [(256, 256, 3), (3,)], [(8, 1, 6, 1), (7, 1, 5)], [(5, 4), ()], [(15, 3, 5), (3, 1)], [(0,), (1,)],
    [(2, 0), (1, 1)], [(), ()], [(65536, 1, 1), (1, 65536, 1), (1, 1, 0)], [(2,), (1,), (2,)],
]

# Shapes that don't agree, with the first axis of the result and the lengths there.
MISFITS = [
    ([(3,), (4,)], (0, 3, 4)), ([(2, 1), (8, 4, 3)], (1, 2, 4)), ([(2, 3), (4, 5)], (0, 2, 4)), ([(0,), (2,)], (0, 0, 2)),
    ([(2,), (1,), (3,)], (0, 2, 3)), ([(1,), (2,), (3,)], (0, 2, 3)), ([(3,), (2,), (3,)], (0, 3, 2)),
]

# The examples of NumPy's pages on `ravel_multi_index` and `unravel_index`, among others.
INDEXES = [((7, 6), (3, 4)), ((7, 6), (6, 5)), ((7, 6), (6, 1)), ((6, 7, 8, 9), (3, 1, 4, 1)), ((), ()), ((1, 3), (0, 2))]
OUTSIDE = [((7, 6), (6, 6)), ((7, 6), (6,)), ((7, 6), (7, 0)), ((0,), (0,)), ((7, 6), (1, 1, 1))]
NO_PLACES = [((7, 6), 42), ((2, 0), 0), ((), 1)]

# Shapes, and regions by first indexes and lengths.
REGIONS = [
    ((5,), (2,), (3,)), ((3, 3), (1, 0), (2, 3)), ((2, 3), (1, 0), (2, 3)), ((3,), (1, 0), (2, 3)), ((), (), ()),
    ((4, 0), (4, 0), (0, 0)), ((4, 0), (5, 0), (0, 0)), ((3,), (2**64 - 1,), (1,)), ((3,), (1,), (2**64 - 1,)),
]
WHOLE = [(4, 0), (), (2, 3)]

# Axes, their lengths, and how they are cut.
CHUNKS = [
    (0, 10, 4), (0, 10, 5), (0, 10, 2**64 - 1), (0, 0, 0), (0, 0, 3), (0, 10, 10), (0, 7, 1), (0, 10, [1, 7, 2]), (0, 0, [0]),
    (7, 3, [3]),
]
MANY_CHUNKS = [(0, LARGE, 1), (0, LARGE, LARGE - 1)]
HUGE = 2**64 - 1
NO_CHUNKS = [
    (0, 10, [4, 4], "sum 8, length 10"), (0, 10, [], "sum 0, length 10"), (0, 0, [3], "sum 3, length 0"),
    (0, 10, [HUGE, HUGE], "sum 36893488147419103230, length 10"), (0, 10, [4, 0, 4], "zero chunk"), (0, 0, [], "zero chunk"),
    (0, 0, [0, 0], "zero chunk"), (3, 10, 0, "zero chunk"), (2, 4, [4, 0], "zero chunk"),
]

DIVIDED = [
    (7, 2), (-7, 2), (7, -2), (-7, -2), (6, -3), (-6, 3), (1, -3), (0, 5), (MIN, -1), (MIN, 2), (MIN, 3), (MAX, MIN),
    (1, 0), (0, 0), (MIN, 0),
]
ELEMENTS = [
    ("+", MAX, 1), ("-", MIN, 1), ("*", 2**62, 2), ("minimum", -1, 0), ("maximum", -1, 0), ("+", -5, 5), ("*", MIN, -1),
]
OPERATIONS = {
    "+": np.add, "-": np.subtract, "*": np.multiply, "//": np.floor_divide, "%": np.remainder, "minimum": np.minimum,
    "maximum": np.maximum,
}
NOTHING = [("+", None, 1), ("*", 1, None), ("minimum", None, None)]
PICKED = [(-1, 2, 3), (0, 2, 3), (MIN, 2, 3), (None, 2, 3), (1, None, 3), (0, 2, None)]
NEGATIVE = [MIN, MAX, 0, 5]
FOLDED = [
    (fold, cells) for fold in ("sum", "prod", "min", "max") for cells in ([5], [-5], [], [2**62, 2**62, 3], [MIN, -1, MAX])
]
FOLDS = {
    "sum": lambda cells: np.add.reduce(cells), "prod": lambda cells: np.multiply.reduce(cells),
    "min": lambda cells: np.minimum.reduce(cells, initial=MAX), "max": lambda cells: np.maximum.reduce(cells, initial=MIN),
}

BLOCKS = [
    ("+", [[1, 2], [3, 4]], [10, 20]), ("//", [1, 2, 3, 4], [1, 0, 1, 0]), ("%", [7, -7], [[2], [-2]]), ("*", 3, [1, -1]),
    ("-", np.zeros((0, 2), dtype=np.int64), [1, 2]),
]
CHOSEN = [([0, 1, -1], 7, [1, 2, 3]), ([[1], [0]], [1, 2], 9)]
NEGATED = [[1, 2, 3], [[MIN, 0]], 4]
TAKEN = [(None, None, -2), (1, 4, None), (4, 0, -3), (3, 1, None)]
TABLES = [[1, 2, 3, 4, 5, 6], [MAX, 1, -1, 1, MIN, -1]]
RAMPS = [((3, 4), (1, 2), (2, 2), 10, -1), ((), (), (), MAX, 7), ((5,), (3,), (2,), MAX, 1), ((2, 0), (0, 0), (1, 0), 1, 1)]

# Shapes in an order of storage, and regions.
STORED = [
    ("C", (2, 3), (0, 1), (2, 2)), ("F", (2, 3), (0, 1), (2, 2)), ("F", (2, 3), (1, 0), (1, 3)), ("C", (2, 3), (1, 0), (1, 3)),
    ("F", (4, 0), (1, 0), (2, 0)), ("F", (), (), ()), ("C", (2, 3), (0, 0), (2, 3)), ("F", (2, 3), (0, 1), (2, 1)),
    ("F", (2, 3), (0, 1), (0, 1)), ("C", (3, 2, 4), (1, 0, 1), (2, 2, 2)), ("F", (3, 2, 4), (0, 1, 1), (3, 1, 2)),
    ("C", (3, 2, 4), (1, 0, 0), (2, 2, 4)),
]
TURNED = [(2, 3), (2, 3, 2), (), (3, 0)]
ORDERS = {"C": "by-row", "F": "by-column"}


def listed(items):
    return ",".join(str(int(x)) for x in items) or "()"


def array(cells):
    return np.array(cells, dtype=np.int64)


def given(cells):
    """An array by its lengths and its elements."""
    a = array(cells)
    return f"{listed(a.shape)} {listed(a.ravel())}"


def cells_of(a):
    return "".join(f" {n}" for n in a.shape) + " :" + "".join(f" {int(x)}" for x in a.ravel())


def maybe(n):
    return "-" if n is None else str(n)


def has(dims):
    return f" {tuple(dims)} has {math.prod(dims)}"


def bounds(starts, lengths):
    return f" from {listed(starts)} so many {listed(lengths)}"


def is_part(dims, starts, lengths):
    return len(dims) == len(starts) and all(s + n <= d for d, s, n in zip(dims, starts, lengths))


def shapes():
    for dims in SHAPES:
        yield f"shape {listed(dims)}", has(dims)
    for dims, quantity in NO_SHAPES:
        yield f"shape {listed(dims)}", f" refused, {quantity}"
    for n in (3, 0, LARGE):
        yield f"line {n}", has((n,))
    for dims in WHOLE:
        yield f"whole {listed(dims)}", bounds((0,) * len(dims), dims) + bounds((), ())
    for dims, starts, lengths in REGIONS:
        part = " is a part" + has(lengths) if is_part(dims, starts, lengths) else " is no part"
        yield f"region {listed(dims)} {listed(starts)} {listed(lengths)}", bounds(starts, lengths) + part


def broadcast_line(shapes):
    return " ".join([{2: "broadcast", 3: "broadcast-three"}[len(shapes)]] + [listed(dims) for dims in shapes])


def broadcasts():
    for shapes in BROADCASTS:
        made = f" {listed(np.broadcast_shapes(*shapes))}"
        yield broadcast_line(shapes), made
        yield broadcast_line(shapes[::-1]), made
    for shapes, (axis, left, right) in MISFITS:
        try:
            np.broadcast_shapes(*shapes)
        except ValueError:
            yield broadcast_line(shapes), f" refused, shape: axis {axis}: {left} and {right}"
        else:
            raise SystemExit(f"NumPy doesn't refuse {shapes}")
    yield broadcast_line([(65536, 1), (1, 65536)]), " refused, limit elements"


def indexes():
    for dims, index in INDEXES:
        place = int(np.ravel_multi_index(index, dims)) if dims else 0
        yield f"ravel {listed(dims)} {listed(index)}", f" {place}"
        yield f"unravel {listed(dims)} {place}", f" {listed(np.unravel_index(place, dims) if dims else ())}"
    for dims, index in OUTSIDE:
        yield f"ravel {listed(dims)} {listed(index)}", " outside"
    for dims, place in NO_PLACES:
        yield f"unravel {listed(dims)} {place}", " outside"


def cut(length, spec):
    """The chunks of an axis, as Dask's page on them says."""
    if isinstance(spec, list):
        return spec
    if length == 0:
        return [0]
    rest = length % spec
    return [spec] * (length // spec) + ([rest] if rest else [])


def cutting(axis, length, spec):
    how = f"list {listed(spec)}" if isinstance(spec, list) else f"even {spec}"
    return f"{axis} {length} {how}"


def chunks():
    for axis, length, spec in CHUNKS:
        sizes = cut(length, spec)
        yield f"chunks {cutting(axis, length, spec)}", f" {listed(sizes)}"
        yield f"count {cutting(axis, length, spec)}", f" {len(sizes)}"
    for axis, length, size in MANY_CHUNKS:
        yield f"count {cutting(axis, length, size)}", f" {-(-length // size)}"
    for axis, length, spec, why in NO_CHUNKS:
        for word in ("chunks", "count"):
            yield f"{word} {cutting(axis, length, spec)}", f" refused, chunks: axis {axis}: {why}"


def applied(op, a, b):
    if op in ("//", "%") and b == 0:
        return " nothing"
    return f" {int(OPERATIONS[op](np.int64(a), np.int64(b)))}"


def elements():
    for op, a, b in [(op, a, b) for op in ("//", "%") for a, b in DIVIDED] + ELEMENTS:
        yield f"element {op} {a} {b}", applied(op, a, b)
    for op, a, b in NOTHING:
        yield f"element {op} {maybe(a)} {maybe(b)}", " nothing"
    for condition, yes, no in PICKED:
        there = None not in (condition, yes, no)
        yield f"pick {maybe(condition)} {maybe(yes)} {maybe(no)}", f" {int(np.where(condition, yes, no))}" if there else " nothing"
    for a in NEGATIVE:
        yield f"negative {a}", f" {int(np.negative(np.int64(a)))}"
    for fold, cells in FOLDED:
        yield f"fold {fold} {listed(cells)}", f" {int(FOLDS[fold](array(cells)))}"


def combined(op, a, b):
    if op in ("//", "%"):
        zeros = np.broadcast_arrays(a, b)[1].ravel() == 0
        if zeros.any():
            return f" refused, zero division at {int(np.argmax(zeros))}"
    return cells_of(OPERATIONS[op](a, b))


def blocks():
    for cells in ([[1, -2], [3, -4]], 7, np.zeros((2, 0))):
        yield f"block {given(cells)}", cells_of(array(cells)) * 2
    for op, a, b in BLOCKS:
        yield f"blocks {op} {given(a)} {given(b)}", combined(op, array(a), array(b))
    for condition, yes, no in CHOSEN:
        yield f"choose {given(condition)} {given(yes)} {given(no)}", cells_of(np.where(array(condition) != 0, array(yes), array(no)))
    for cells in NEGATED:
        yield f"negate {given(cells)}", cells_of(np.negative(array(cells)))
    five = array([0, 1, 2, 3, 4])
    for start, stop, step in TAKEN:
        yield f"taken {maybe(start)} {maybe(stop)} {maybe(step)} {listed(five)}", cells_of(five[start:stop:step])
    for cells in TABLES:
        table = array(cells).reshape(2, 3)
        yield f"turned {listed(cells)}", cells_of(table.T)
        for fold, call in (("sum", np.sum), ("prod", np.prod), ("min", np.min), ("max", np.max)):
            yield f"columns {fold} {listed(cells)}", cells_of(call(table, axis=0))


def ramps():
    for dims, starts, lengths, start, step in RAMPS:
        places = np.arange(math.prod(dims), dtype=np.int64).reshape(dims)
        whole = np.asarray(np.int64(start) + np.int64(step) * places)
        part = whole[tuple(slice(s, s + n) for s, n in zip(starts, lengths))]
        yield f"ramp {start} {step} {listed(starts)} {listed(lengths)} {listed(dims)}", cells_of(np.asarray(part))


def part_of(order, dims, starts, lengths):
    """Where each element of a region is stored, and its place in the region's block, in the order of storage."""
    part = tuple(slice(s, s + n) for s, n in zip(starts, lengths))
    places = np.asarray(np.arange(math.prod(dims)).reshape(dims, order=order)[part]).ravel(order=order)
    targets = np.arange(math.prod(lengths)).reshape(lengths).ravel(order=order)
    return [int(p) for p in places], [int(t) for t in targets]


def row_len(places):
    """The longest row whose elements are stored one behind the other."""
    def are_rows(n):
        return len(places) % n == 0 and all(places[k] == places[k - 1] + 1 for k in range(1, len(places)) if k % n)

    return max(n for n in range(1, len(places) + 1) if are_rows(n))


def runs_of(places, targets):
    """The bytes of each run, where they stand in a file whose data begins at 80, and their place in the block."""
    runs = []
    for place, target in zip(places, targets):
        if runs and runs[-1][1] + runs[-1][0] == 80 + 8 * place and runs[-1][2] + runs[-1][0] // 8 == target:
            runs[-1][0] += 8
        else:
            runs.append([8, 80 + 8 * place, target])
    return runs


def storage():
    for order, dims, starts, lengths in STORED:
        region = f"{listed(starts)} {listed(lengths)}"
        places, targets = part_of(order, dims, starts, lengths)
        walked = "".join(f" {p}" for p in places)
        yield f"walk {ORDERS[order]} {listed(dims)} {region}", f"{walked} in rows of {row_len(places)}" if places else " none"
        yield f"runs {ORDERS[order]} {region} {listed(dims)}", "".join(f" {n} from {at} to {place}" for n, at, place in runs_of(places, targets))
    for dims in TURNED:
        cells = np.arange(1, math.prod(dims) + 1)
        yield f"row-major {listed(dims)} {listed(cells)}", f" {listed(cells.reshape(dims, order='F').ravel())}"
        for order in "CF":
            targets = part_of(order, dims, (0,) * len(dims), dims)[1]
            yield f"targets {ORDERS[order]} {listed(dims)}", "".join(f" {t}" for t in targets)


def lists():
    yield "dims 3,4", " 3,4"
    yield "dims ()", " ()"
    yield "specs 2 2 -1 2 1 2", " even 2 list 1,2"
    yield "shapes 7 2,3", " 7 2,3"


def lines():
    with np.errstate(all="ignore"):
        for some in (shapes, broadcasts, indexes, chunks, elements, blocks, ramps, storage, lists):
            yield from some()
