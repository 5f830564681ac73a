#!/usr/bin/env python3
"""Writes the lines of the program array_table, and the answer to each.

    python3 tools/array_table.py          writes crates/array_table/stdin and crates/array_table/stdout

`array_words.py` has the lines on shapes, chunks, elements, blocks and storage, `slices.py` those on slices, and
`array_regions.py` the cases of expressions over inputs and of regions. The others, here, are expressions. Each is
evaluated twice: once by NumPy on arrays of int64, and once to the numbers that the program reads. Beside its array each expression has a mask of the elements that met a zero divisor, made by the same
NumPy calls on masks; the first of them in row-major order is what the program names. A case that is refused has the
program's words for it, and NumPy must raise an error for it too, unless the rule is Dask's or this project's own.
"""

import os

import numpy as np

import array_regions
import array_words
import slices

MIN, MAX = -(2**63), 2**63 - 1
BINARY = {"+": 0, "-": 1, "*": 2, "//": 3, "%": 4, "minimum": 5, "maximum": 6}
CALLS = {
    "+": np.add, "-": np.subtract, "*": np.multiply, "//": np.floor_divide, "%": np.remainder,
    "minimum": np.minimum, "maximum": np.maximum,
}
FOLDS = {"sum": 0, "prod": 1, "min": 2, "max": 3}


class Refused(Exception):
    """NumPy raised an error; the numbers of the node are there."""


class Row:
    numbers, made = [], []


def begin():
    Row.numbers, Row.made = [], []


def node(numbers, make):
    """One more node; `make` gives its values and its mask."""
    Row.numbers += numbers
    try:
        with np.errstate(all="ignore"):
            value, bad = make()
    except (ValueError, IndexError, TypeError) as e:
        raise Refused(str(e)) from e
    made = Node(len(Row.made), np.asarray(value, dtype=np.int64), np.asarray(bad, dtype=bool))
    Row.made.append(made)
    return made


def counted(items):
    items = list(items)
    return [len(items)] + items


def specs(chunks):
    numbers = [len(chunks)]
    for size in chunks:
        numbers += [size] if isinstance(size, int) else [-1] + counted(size)
    return numbers


def as_node(x):
    return x if isinstance(x, Node) else full((), x)


def full(dims, value, chunks=None):
    chunks = chunks if chunks is not None else tuple(max(n, 1) for n in dims)
    return node([0, value] + counted(dims) + specs(chunks), lambda: (np.full(dims, value, dtype=np.int64), np.zeros(dims, bool)))


def ramp(dims, start, step, chunks=None):
    chunks = chunks if chunks is not None else tuple(max(n, 1) for n in dims)

    def make():
        places = np.arange(int(np.prod(dims, dtype=np.int64)), dtype=np.int64).reshape(dims)
        return np.add(np.int64(start), np.multiply(np.int64(step), places)), np.zeros(dims, bool)

    return node([1, start, step] + counted(dims) + specs(chunks), make)


def given(values):
    """An array that a file holds."""
    held = np.array(values, dtype=np.int64)
    return node([11] + counted(held.shape) + specs((1,) * held.ndim), lambda: (held, np.zeros(held.shape, bool)))


def doubled(a, times):
    """The sum of an array with itself, and of that with itself, and so on."""
    for _ in range(times):
        a = a + a
    return a


def array(values):
    """An array by its elements, made of arrays of one element."""
    if isinstance(values[0], int):
        parts = [full((1,), v) for v in values]
        return concatenate(parts, 0) if len(parts) > 1 else parts[0]
    rows = []
    for row in values:
        parts = [full((1, 1), v) for v in row]
        rows.append(concatenate(parts, 1) if len(parts) > 1 else parts[0])
    return concatenate(rows, 0) if len(rows) > 1 else rows[0]


def elementwise(op, a, b):
    a, b = as_node(a), as_node(b)

    def make():
        bad = a.bad | b.bad
        if op in ("//", "%"):
            bad = bad | (b.value == 0)
        return CALLS[op](a.value, b.value), bad

    return node([3, BINARY[op], a.number, b.number], make)


def minimum(a, b):
    return elementwise("minimum", a, b)


def maximum(a, b):
    return elementwise("maximum", a, b)


def where(c, a, b):
    c, a, b = as_node(c), as_node(a), as_node(b)
    return node([4, c.number, a.number, b.number], lambda: (np.where(c.value != 0, a.value, b.value), c.bad | a.bad | b.bad))


def transpose(a, axes):
    def make():
        return np.transpose(a.value, axes), np.transpose(a.bad, axes)

    return node([6, a.number] + counted(axes), make)


def rechunk(a, chunks):
    return node([7, a.number] + specs(chunks), lambda: (a.value, a.bad))


def concatenate(parts, axis):
    parts = [as_node(p) for p in parts]

    def make():
        return np.concatenate([p.value for p in parts], axis=axis), np.concatenate([p.bad for p in parts], axis=axis)

    return node([8, axis] + counted(p.number for p in parts), make)


def reduction(fold, a, axes, split):
    call = {"sum": np.sum, "prod": np.prod, "min": np.min, "max": np.max}[fold]
    listed = None if axes is None else tuple(axes)

    def make():
        return call(a.value, axis=listed), np.any(a.bad, axis=listed)

    given = [0] if axes is None else [1] + counted(axes)
    return node([9, FOLDS[fold], a.number, split] + given, make)


def sum(a, axis=None, split=4):
    return reduction("sum", a, axis, split)


def prod(a, axis=None, split=4):
    return reduction("prod", a, axis, split)


def min(a, axis=None, split=4):
    return reduction("min", a, axis, split)


def max_of(a, axis=None, split=4):
    return reduction("max", a, axis, split)


def tensordot(a, b, left, right):
    def make():
        value = np.tensordot(a.value, b.value, axes=(list(left), list(right)))
        one, two = np.ones_like(a.value), np.ones_like(b.value)
        bad = np.tensordot(a.bad.astype(np.int64), two, axes=(list(left), list(right)))
        bad = bad + np.tensordot(one, b.bad.astype(np.int64), axes=(list(left), list(right)))
        return value, bad > 0

    return node([10, a.number, b.number] + counted(left) + counted(right), make)


class Node:
    def __init__(self, number, value, bad):
        self.number, self.value, self.bad = number, value, bad

    def __add__(self, other): return elementwise("+", self, other)
    def __sub__(self, other): return elementwise("-", self, other)
    def __mul__(self, other): return elementwise("*", self, other)
    def __floordiv__(self, other): return elementwise("//", self, other)
    def __mod__(self, other): return elementwise("%", self, other)
    def __radd__(self, other): return elementwise("+", other, self)
    def __rsub__(self, other): return elementwise("-", other, self)
    def __rfloordiv__(self, other): return elementwise("//", other, self)
    def __rmod__(self, other): return elementwise("%", other, self)
    def __neg__(self): return node([2, self.number], lambda: (np.negative(self.value), self.bad))

    @property
    def T(self): return transpose(self, tuple(range(self.value.ndim))[::-1])

    def __getitem__(self, parts):
        parts = parts if isinstance(parts, tuple) else (parts,)
        numbers = []
        for part in parts:
            if isinstance(part, slice):
                numbers.append(1)
                for end in (part.start, part.stop, part.step):
                    numbers += [0] if end is None else [1, end]
            else:
                numbers += [0, part]
        return node([5, self.number, len(parts)] + numbers, lambda: (self.value[parts], self.bad[parts]))


# Expressions that have an array.
VALUES = """
full((), 7)
full((2,), -7)
full((2, 3), 5)
full((0,), 1)
full((2, 0, 3), 1)
full((1, 1, 1, 1, 1, 1, 1, 1), 9)
full((1, 2, 1, 2, 1, 2, 1, 1), 4)
full((3,), 2**63 - 1)
full((3,), -2**63)
full((5,), 1, (2,))
full((5,), 1, ((2, 3),))
full((2, 5), 3, ((1, 1), 4))
ramp((), 5, 3)
ramp((4,), 0, 1)
ramp((4,), 10, -3)
ramp((2, 3), 0, 1)
ramp((2, 2, 2), 1, 2)
ramp((0, 3), 1, 2)
ramp((3,), 2**63 - 1, 1)
ramp((3,), -2**63, -1)
ramp((4,), 0, 2**62)
ramp((1, 1, 1, 2, 1, 1, 1, 3), 1, 1)
ramp((5,), 3, 0)
-full((), 5)
-ramp((3,), -1, 1)
-full((2,), -2**63)
-full((2,), 2**63 - 1)
-(-ramp((2, 2), 0, 1))
-full((0,), 1)
-full((2, 0), 1)
-(ramp((3,), 1, 1) // array([1, 0, 1]))
-ramp((1, 1, 1, 1, 1, 1, 1, 2), 1, 1)
-full((3,), 0)
-ramp((2, 3), -3, 1).T
-array([1, -1, 2**63 - 1, -2**63])
ramp((3,), 0, 1) + 1
ramp((3,), 0, 1) + ramp((3,), 10, 10)
ramp((3, 1), 0, 1) + ramp((1, 4), 0, 10)
ramp((3, 1), 0, 1) + ramp((4,), 0, 10)
ramp((2, 1, 3), 0, 1) + ramp((4, 1), 0, 100)
full((1,), 2**63 - 1) + 1
full((1,), -2**63) + full((1,), -2**63)
full((0,), 1) + 1
full((0, 1), 1) + ramp((3,), 0, 1)
full((), 2) + full((), 3)
full((1, 1, 1, 1, 1, 1, 1, 1), 1) + ramp((2,), 0, 1)
(x := ramp((3,), 0, 1)) + x
ramp((3,), 0, 1) - 1
1 - ramp((3,), 0, 1)
full((1,), -2**63) - 1
full((1,), 0) - full((1,), -2**63)
ramp((2, 2), 0, 1) - ramp((2,), 0, 1)
ramp((2, 2), 0, 1) - ramp((2, 1), 5, 5)
ramp((2, 3), 0, 1) - ramp((2, 3), 0, 1)
full((2, 0), 1) - full((2, 1), 5)
ramp((2, 2, 2), 0, 1) - ramp((2, 1, 1), 0, 100)
full((), 2**63 - 1) - full((), -1)
ramp((3,), 1, 1) * ramp((3,), 1, 1)
ramp((3,), -1, 1) * -4
full((2,), 2**62) * 2
full((2,), 2**62) * 4
full((1,), -2**63) * -1
full((1,), 2**63 - 1) * full((1,), 2**63 - 1)
ramp((2, 1), 1, 1) * ramp((1, 3), 1, 1)
full((0, 2), 3) * ramp((2,), 1, 1)
full((), 6) * full((), 7)
array([3037000500, -3037000500]) * 3037000500
full((1,), -7, (1,)) // 2
full((1,), 7) // -2
full((1,), -7) // -2
array([7, -7, 6, -6]) // 3
array([7, -7, 6, -6]) // -3
full((1,), -2**63) // -1
full((1,), -2**63) // full((1,), 2**63 - 1)
full((1,), 2**63 - 1) // full((1,), -2**63)
array([1, 2, 3, 4]) // array([1, 0, 1, 1])
ramp((2, 2), 1, 1) // array([1, 0])
(ramp((4,), 1, 1) // array([1, 0, 1, 1]))[2:4]
(ramp((4,), 1, 1) // array([1, 0, 1, 1]))[0:1]
5 // ramp((3,), 2, -1)
full((0,), 1) // 0
full((), 1) // full((), 0)
0 // ramp((2,), 0, 1)
ramp((3, 1), -1, 1) // ramp((2,), 1, 1)
full((1,), -7) % 2
full((1,), 7) % -2
full((1,), -7) % -2
array([7, -7, 6, -6]) % 3
array([7, -7, 6, -6]) % -3
full((1,), -2**63) % -1
full((1,), -2**63) % full((1,), 2**63 - 1)
full((1,), 2**63 - 1) % full((1,), -2**63)
array([1, 2, 3, 4]) % array([1, 1, 0, 0])
ramp((2, 2), 1, 1) % array([0, 1])
full((0, 3), 1) % 0
ramp((3, 1), -1, 1) % ramp((2,), 1, 1)
minimum(ramp((3,), 0, 1), 1)
minimum(ramp((3,), 0, 1), ramp((3,), 2, -1))
minimum(full((1,), -2**63), full((1,), 2**63 - 1))
minimum(ramp((2, 1), 0, 3), ramp((1, 3), 0, 1))
minimum(full((), -1), full((), 1))
minimum(full((0,), 1), 5)
minimum(1 // array([1, 0]), 7)
minimum(array([-1, -2]), array([-2, -1]))
minimum(ramp((2, 2), 0, 1), ramp((2,), 1, 1))
minimum(full((1, 1, 1, 1, 1, 1, 1, 1), 3), 2)
maximum(ramp((3,), 0, 1), 1)
maximum(ramp((3,), 0, 1), ramp((3,), 2, -1))
maximum(full((1,), -2**63), full((1,), 2**63 - 1))
maximum(ramp((2, 1), 0, 3), ramp((1, 3), 0, 1))
maximum(full((), -1), full((), 1))
maximum(full((0,), 1), 5)
maximum(1 // array([1, 0]), 7)
maximum(array([-1, -2]), array([-2, -1]))
maximum(ramp((2, 2), 0, 1), ramp((2,), 1, 1))
maximum(full((1, 1, 1, 1, 1, 1, 1, 1), 3), 2)
where(array([1, 0, -5]), ramp((3,), 0, 1), ramp((3,), 10, 1))
where(array([1, 0]), 5, 6)
where(ramp((2, 1), 0, 1), (x := ramp((3,), 0, 1)), x)
where(1, full((2,), 3), full((2,), 4))
where(0, full((2,), 3), full((2,), 4))
where(ramp((2, 1), 0, 1), ramp((1, 3), 0, 1), ramp((3,), 10, 1))
where(full((0,), 1), 1, 2)
where(array([[1, 0], [0, 1]]), ramp((2, 2), 0, 1), -1)
where(array([1, 1]), 1 // array([1, 1]), 1 // array([0, 1]))
where(1 // array([1, 0]), 1, 2)
where(full((), 3), full((), 4), full((), 5))
where(ramp((2,), 0, 1), full((3, 1), 7), 8)
where(full((1,), -2**63), full((1,), 1), full((1,), 2))
where(full((65536, 1, 1), 1), full((1, 65536, 1), 2), full((1, 1, 0), 3))
ramp((5,), 0, 1)[::-2]
ramp((5,), 0, 1)[5:2]
ramp((5,), 0, 1)[1:4]
ramp((5,), 0, 1)[-3:-1]
ramp((5,), 0, 1)[::-1]
ramp((5,), 0, 1)[3:0:-2]
ramp((5,), 0, 1)[-9:9]
ramp((5,), 0, 1)[2]
ramp((5,), 0, 1)[-5]
ramp((3, 4), 0, 1)[1]
ramp((3, 4), 0, 1)[:, 2]
ramp((2, 3), 0, 1)[-1]
ramp((2, 3), 0, 1)[:, 0]
ramp((3, 4), 0, 1)[::-1, 1::2]
ramp((3, 4), 0, 1)[2, -1]
ramp((2, 3, 4), 0, 1)[:, 1, ::-3]
ramp((2, 3, 4), 0, 1)[1, :, 2]
ramp((0, 4), 0, 1)[:, 1:3]
ramp((4,), 0, 1)[::2**62]
ramp((4,), 0, 1)[::-2**63]
ramp((1, 1, 1, 1, 1, 1, 1, 4), 0, 1)[0, 0, :, 0, 0, 0, 0, ::-1]
(1 // array([0, 1, 1]))[1:]
ramp((2, 3), 0, 1).T
ramp((5,), 0, 1).T
full((), 3).T
transpose(ramp((2, 3), 0, 1), (0, 1))
transpose(ramp((2, 3, 4), 0, 1), (2, 0, 1))
transpose(ramp((2, 3, 4), 0, 1), (1, 2, 0))
transpose(ramp((2, 1, 3), 0, 1), (1, 0, 2))
ramp((2, 0, 3), 0, 1).T
transpose(ramp((1, 2, 1, 1, 1, 1, 1, 3), 0, 1), (7, 6, 5, 4, 3, 2, 1, 0))
(1 // array([[1, 1], [0, 1]])).T
ramp((2, 2), 0, 1).T + ramp((2, 2), 0, 1)
rechunk(ramp((3,), 0, 1), ((1, 2),))
rechunk(ramp((2, 3), 0, 1), (1, 2))
rechunk(ramp((2, 3), 0, 1), (2, (1, 1, 1)))
rechunk(full((), 4), ())
rechunk(full((0, 3), 4), (5, 1))
rechunk(full((0, 3), 4), ((0,), 1))
rechunk(ramp((5,), 0, 1, (2,)), (3,))
rechunk(1 // array([1, 0]), (2,))
rechunk(ramp((1, 1, 1, 1, 1, 1, 1, 2), 0, 1), (1, 1, 1, 1, 1, 1, 1, 1))
rechunk(ramp((2, 2), 0, 1).T, (1, 1))
concatenate([ramp((2,), 0, 1), ramp((3,), 10, 1)], 0)
concatenate([ramp((2, 2), 0, 1), ramp((1, 2), 10, 1)], 0)
concatenate([ramp((2, 2), 0, 1), ramp((2, 1), 10, 1)], 1)
concatenate([ramp((3,), 0, 1)], 0)
concatenate([ramp((2, 3), 0, 1), ramp((4, 3), 10, 1)], 0)
concatenate([full((0,), 1), ramp((2,), 0, 1), full((0,), 1)], 0)
concatenate([full((0, 3), 1), ramp((2, 3), 0, 1)], 0)
concatenate([(x := ramp((2,), 0, 1)), x, x], 0)
concatenate([ramp((2, 0), 0, 1), ramp((2, 2), 0, 1)], 1)
concatenate([1 // array([1, 1]), 1 // array([1, 0])], 0)
concatenate([ramp((1, 2, 2), 0, 1), ramp((1, 1, 2), 10, 1), ramp((1, 2, 2), 20, 1)], 1)
sum(ramp((4,), 1, 1))
sum(full((0,), 1))
sum(ramp((2, 3), 0, 1), (0,))
sum(ramp((2, 3), 0, 1), (1,))
sum(ramp((2, 3), 0, 1), (1, 0))
sum(ramp((2, 3, 4), 0, 1), (0, 2))
sum(full((3,), 2**62))
sum(full((2, 0), 1), (1,))
sum(full((2, 0), 1), (0,))
sum(full((), 5))
sum(ramp((2, 3), 0, 1), ())
sum(1 // array([[1, 1], [0, 1]]), (1,))
sum(ramp((10,), 0, 1, (1,)), None, 2)
sum(ramp((1, 1, 1, 1, 1, 1, 2, 2), 1, 1))
prod(ramp((4,), 1, 1))
prod(full((0,), 5))
prod(full((2, 0), 5))
prod(ramp((2, 3), 1, 1), (0,))
prod(ramp((2, 3), 1, 1), (1,))
prod(full((64,), 2))
prod(full((3, 0), 2), (1,))
prod(full((), -5))
prod(array([-1, 2**62, 2]))
prod(1 // array([1, 0, 0]))
prod(ramp((2, 2, 2), 1, 1), (2, 1))
min(ramp((4,), 3, -1))
min(ramp((2, 3), 5, -1), (0,))
min(ramp((2, 3), 5, -1), (1,))
min(array([5, -2**63, 3]))
min(full((), 5))
min(full((3,), 2**63 - 1))
min(full((0, 3), 1), (1,))
min(1 // array([1, 0]))
min(array([[3, 1], [2, 4]]), (0,))
min(ramp((2, 2, 2), 7, -1), (0, 2))
max(ramp((4,), 3, -1))
max(ramp((2, 3), 5, -1), (0,))
max(ramp((2, 3), 5, -1), (1,))
max(array([5, 2**63 - 1, 3]))
max(full((), 5))
max(full((3,), -2**63))
max(full((0, 3), 1), (1,))
max(1 // array([1, 0]))
max(array([[3, 1], [2, 4]]), (0,))
max(-ramp((2, 2), 1, 1))
tensordot(array([[1, 2, 3], [4, 5, 6]]), array([[1, 2], [3, 4], [5, 6]]), (1,), (0,))
tensordot(ramp((3,), 1, 1), ramp((3,), 1, 1), (0,), (0,))
tensordot(ramp((2, 3), 0, 1), ramp((3, 2), 0, 1), (1,), (0,))
tensordot(ramp((2,), 1, 1), ramp((3,), 1, 1), (), ())
tensordot(ramp((2, 3), 0, 1), ramp((2, 3), 0, 1), (0, 1), (0, 1))
tensordot(ramp((2, 3), 0, 1), ramp((3, 2), 0, 1), (1, 0), (0, 1))
tensordot(ramp((2, 3, 4), 0, 1), ramp((4, 3), 0, 1), (1, 2), (1, 0))
tensordot(full((2, 0), 1), full((0, 3), 1), (1,), (0,))
tensordot(full((0, 2), 1), full((2, 3), 1), (1,), (0,))
tensordot(full((2, 2), 2**62), full((2, 2), 2), (1,), (0,))
tensordot(full((), 3), ramp((2,), 1, 1), (), ())
tensordot(1 // array([[1, 1], [1, 0]]), ramp((2, 2), 0, 1), (1,), (0,))
tensordot(ramp((1, 2, 1, 2), 0, 1), ramp((2, 1, 1, 1), 1, 1), (1,), (0,))
"""

# Expressions that are refused, and the program's words. "numpy" where NumPy refuses them as well.
REFUSED = [
    ("ramp((3,), 0, 1) + ramp((4,), 0, 1)", "shape: axis 0: 3 and 4", "numpy"),
    ("ramp((2, 3), 0, 1) - ramp((2, 1, 4), 0, 1)", "shape: axis 2: 3 and 4", "numpy"),
    ("where(ramp((2,), 0, 1), ramp((3,), 0, 1), ramp((2,), 0, 1))", "shape: axis 0: 2 and 3", "numpy"),
    ("where(1, ramp((3,), 0, 1), ramp((2,), 0, 1))", "shape: axis 0: 3 and 2", "numpy"),
    ("ramp((5,), 0, 1)[5]", "shape: index 5 of length 5", "numpy"),
    ("ramp((5,), 0, 1)[-6]", "shape: index -6 of length 5", "numpy"),
    ("ramp((0,), 0, 1)[0]", "shape: index 0 of length 0", "numpy"),
    ("ramp((5,), 0, 1)[::0]", "shape: step 0", "numpy"),
    ("ramp((2, 2), 0, 1)[5, ::0]", "shape: index 5 of length 2", "numpy"),
    ("ramp((5,), 0, 1)[0, 0]", "shape: 2 parts for 1 axes", "numpy"),
    ("full((), 1)[:]", "shape: 1 parts for 0 axes", "numpy"),
    ("transpose(ramp((2, 3), 0, 1), (0, 2))", "shape: bad axis 2", "numpy"),
    ("transpose(ramp((2, 3), 0, 1), (1, 1))", "shape: bad axis 1", "numpy"),
    ("transpose(ramp((2, 3), 0, 1), (1,))", "shape: bad axis 1", "numpy"),
    ("concatenate([ramp((2, 2), 0, 1), ramp((2, 3), 0, 1)], 0)", "shape: axis 1: 2 and 3", "numpy"),
    ("concatenate([ramp((2, 2), 0, 1), ramp((2,), 0, 1)], 0)", "shape: axis 0: 2 and 1", "numpy"),
    ("concatenate([ramp((2,), 0, 1), ramp((2,), 0, 1)], 1)", "shape: bad axis 1", "numpy"),
    ("concatenate([full((), 1), full((), 2)], 0)", "shape: bad axis 0", "numpy"),
    ("sum(ramp((2, 3), 0, 1), (2,))", "shape: bad axis 2", "numpy"),
    ("sum(ramp((2, 3), 0, 1), (0, 0))", "shape: bad axis 0", "numpy"),
    ("min(full((0,), 1))", "shape: empty axis 0", "numpy"),
    ("max(full((2, 0), 1), (1,))", "shape: empty axis 1", "numpy"),
    ("min(full((0, 0), 1), (1,))", "shape: empty axis 1", "own"),
    ("sum(ramp((4,), 0, 1), None, 1)", "shape: split_every 1", "own"),
    ("tensordot(ramp((2, 3), 0, 1), ramp((2, 3), 0, 1), (1,), (0,))", "shape: axis 0: 3 and 2", "numpy"),
    ("tensordot(ramp((2, 3), 0, 1), ramp((3, 2), 0, 1), (2,), (0,))", "shape: bad axis 2", "numpy"),
    ("tensordot(ramp((2, 3), 0, 1), ramp((3, 2), 0, 1), (1,), (0, 1))", "shape: bad axis 1", "numpy"),
    ("full((1,) * 9, 1)", "limit axes", "own"),
    ("full((2**31 + 1,), 1, (1,))", "limit elements", "own"),
    ("full((65536, 1), 1) + full((1, 65536), 1)", "limit elements", "own"),
    ("sum(full((65536, 0, 65536), 1), (1,))", "limit elements", "own"),
    ("concatenate([(x := full((2**31,), 1)), x], 0)", "limit elements", "own"),
    ("tensordot(full((1,) * 5, 1), full((1,) * 4, 1), (), ())", "limit axes", "own"),
    ("full((2, 3), 1, (2,))", "chunks: 1 given for 2 axes", "own"),
    ("full((10,), 1, ((4, 4),))", "chunks: axis 0: sum 8, length 10", "own"),
    ("full((4,), 1, ((4, 0),))", "chunks: axis 0: zero chunk", "own"),
    ("ramp((4,), 0, 1, (0,))", "chunks: axis 0: zero chunk", "own"),
    ("rechunk(ramp((4,), 0, 1), ((3,),))", "chunks: axis 0: sum 3, length 4", "own"),
    ("ramp((5,), 0, 1)[:, 9]", "shape: 2 parts for 1 axes", "numpy"),
    ("ramp((2, 3), 0, 1)[0, 0, 0]", "shape: 3 parts for 2 axes", "numpy"),
    ("ramp((2, 3), 0, 1)[::0, 3]", "shape: step 0", "numpy"),
    ("ramp((2, 3), 0, 1)[-3, 9]", "shape: index -3 of length 2", "numpy"),
    ("full((1,) * 8 + (2147483649,), 1, ())", "limit axes", "own"),
    ("full((0, 2147483649), 1, (0,))", "limit elements", "own"),
    ("full((2, 3), 1, (0,))", "chunks: 1 given for 2 axes", "own"),
    ("full((2, 3), 1, (1, 0))", "chunks: axis 1: zero chunk", "own"),
    ("rechunk(ramp((4,), 0, 1), ((1, 2),))", "chunks: axis 0: sum 3, length 4", "own"),
    ("transpose(ramp((2, 3), 0, 1), (0, 2, 2))", "shape: bad axis 2", "numpy"),
    ("transpose(ramp((2, 3), 0, 1), (1, 0, 1))", "shape: bad axis 1", "numpy"),
    ("concatenate([ramp((2,), 0, 1), ramp((4, 3), 0, 1)], 5)", "shape: axis 0: 1 and 2", "numpy"),
    ("concatenate([ramp((2, 3), 0, 1), ramp((4, 3), 0, 1)], 2)", "shape: bad axis 2", "numpy"),
    ("concatenate([ramp((2, 3), 0, 1), ramp((4, 5), 0, 1)], 0)", "shape: axis 1: 3 and 5", "numpy"),
    ("concatenate([full((2147483648,), 1), full((1,), 1)], 0)", "limit elements", "own"),
    ("sum(ramp((2, 3), 0, 1), (1, 1), 1)", "shape: bad axis 1", "numpy"),
    ("min(full((2, 0, 0), 1), (2, 1), 1)", "shape: empty axis 1", "numpy"),
    ("max(ramp((2,), 0, 1), (0,), 1)", "shape: split_every 1", "own"),
    ("sum(full((65536, 65536, 0), 1), (2,))", "limit elements", "own"),
    ("tensordot(ramp((2, 3), 0, 1), ramp((3, 2), 0, 1), (1,), (7,))", "shape: bad axis 7", "numpy"),
    ("tensordot(ramp((2, 3), 0, 1), ramp((3, 2), 0, 1), (4,), (7,))", "shape: bad axis 4", "numpy"),
    ("tensordot(ramp((2, 3), 0, 1), ramp((3, 2), 0, 1), (0, 1), (0,))", "shape: bad axis 1", "numpy"),
    ("tensordot(ramp((2, 3), 0, 1), ramp((3, 4), 0, 1), (1, 0), (0, 1))", "shape: axis 1: 2 and 4", "numpy"),
]

NAMES = {k: v for k, v in globals().items() if callable(v)}
NAMES["max"] = max_of


def cells(value, bad):
    if bad.any():
        return f" zero divisor at {int(np.argmax(bad.ravel()))}"
    lengths = "".join(f" {n}" for n in value.shape)
    return lengths + " :" + "".join(f" {int(x)}" for x in value.ravel())


def build(text):
    begin()
    return eval(text, dict(NAMES))


def answer(text):
    made = build(text)
    return cells(made.value, made.bad)


def refusal(text, words, by):
    begin()
    if by == "own":
        own_rule(text)
    else:
        try:
            eval(text, dict(NAMES))
        except Refused:
            return f" refused, {words}"
        raise SystemExit(f"NumPy doesn't refuse {text}")
    return f" refused, {words}"


def own_rule(text):
    """The numbers alone, where NumPy has no such rule or the array would be too large."""
    global np
    kept = np

    class Dry:
        def __getattr__(self, name): return getattr(kept, name)
        def full(self, dims, value, dtype=None): return kept.zeros((0,) * min_of(len(dims), 8), dtype=dtype)
        def zeros(self, dims, dtype=None): return kept.zeros((0,) * min_of(len(dims), 8), dtype=dtype)

    np = Dry() if "full" in text else kept
    try:
        eval(text, dict(NAMES))
    except Refused:
        pass
    finally:
        np = kept


def min_of(a, b):
    return a if a < b else b


def nodes():
    return " ".join(map(str, Row.numbers))


def expressions():
    for text in [line for line in VALUES.splitlines() if line]:
        wanted = answer(text)
        yield f"eval {nodes()}#{text}", wanted
    for text, words, by in REFUSED:
        wanted = refusal(text, words, by)
        yield f"eval {nodes()}#{text}", wanted


def given_block(values):
    held = np.array(values, dtype=np.int64)
    return f"{array_words.listed(held.shape)} {array_words.listed(held.ravel())}"


def region_words(bounds):
    starts, lengths = [s for s, _ in bounds], [n for _, n in bounds]
    return f"{array_words.listed(starts)} {array_words.listed(lengths)}"


def region_text(bounds):
    return "[" + ", ".join(f"{s}:{s + n}" for s, n in bounds) + "]"


def part_answer(made, bounds):
    part = tuple(slice(s, s + n) for s, n in bounds)
    return cells(np.asarray(made.value[part]), np.asarray(made.bad[part]))


def held_answer(made):
    lengths = "".join(f" {n}" for n in made.value.shape)
    held = zip(made.value.ravel(), made.bad.ravel())
    return f" |{lengths} :" + "".join(" nothing" if bad else f" {int(x)}" for x, bad in held)


def over_inputs():
    for text, inputs, bounds in array_regions.PARTS:
        made = build(text)
        blocks = " ".join([str(len(inputs))] + [given_block(values) for values in inputs])
        yield f"part {region_words(bounds)} {blocks} {nodes()}#({text}){region_text(bounds)}", part_answer(made, bounds)
    for text, inputs in array_regions.ALL:
        build(text)
        blocks = " ".join([str(len(inputs))] + [given_block(values) for values in inputs])
        yield f"all {blocks} {nodes()}#all of {text}", "".join(held_answer(made) for made in Row.made)


def over_files():
    for text, bounds, files, failing, why in array_regions.FILES:
        made = build(text)
        held = " ".join(given_block(values) for values, _ in files) + " " + array_words.listed(missing for _, missing in files)
        label = f"({text}){region_text(bounds)}, of files without {', '.join(str(missing) for _, missing in files)} bytes"
        label += "" if failing is None else f", read {failing} fails"
        wanted = part_answer(made, bounds) if why is None else f" refused, {why}"
        yield f"files {region_words(bounds)} {array_words.maybe(failing)} {held} {nodes()}#{label}", wanted


def bounds_answer(bounds):
    if bounds is None:
        return " none"
    return array_words.bounds([s for s, _ in bounds], [n for _, n in bounds])


def regions():
    for text, bounds, needs in array_regions.NEEDS:
        build(text)
        wanted = "".join(bounds_answer(needed) for needed in needs)
        yield f"needs {region_words(bounds)} {nodes()}#({text}){region_text(bounds)} needs", wanted
    for text, roots, reached in array_regions.REACHED:
        build(text)
        wanted = "".join(f" {node}" for node in reached)
        yield f"reach {array_words.listed(roots)} {nodes()}#{text}, for {array_words.listed(roots)}", wanted


def lines():
    yield from expressions()
    yield "fill 65536", " 65536 nodes, 65536 places"
    yield "fill 65537", " 65536 nodes, 65536 places, refused, limit nodes"
    yield from over_inputs()
    yield from over_files()
    yield from regions()
    yield from array_words.lines()
    yield from slices.lines()


def main():
    here = os.path.join(os.path.dirname(os.path.abspath(__file__)), "..", "crates", "array_table")
    rows, answers = [], []
    for line, wanted in lines():
        rows.append(line)
        answers.append(line.split("#", 1)[-1] + ":" + wanted)
    with open(os.path.join(here, "stdin"), "w") as f:
        f.write("\n".join(rows) + "\n")
    with open(os.path.join(here, "stdout"), "w") as f:
        f.write("\n".join(answers) + "\n")


main()
