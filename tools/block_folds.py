#!/usr/bin/env python3
"""Cases of reductions, contractions and assemblies of blocks, with the results that NumPy gives.

    /usr/bin/python3 tools/block_folds.py          prints the cases

`cases()` gives them one by one: the operation's name, what it is given, the input blocks and the result, where a block is
its shape and its elements in row-major order. A reduction has its fold and its axes; a contraction has the places of its
two inputs and the two lists of axes; an assembly has the result's shape and its pieces, each a source, the first index
there, the first index in the result and the lengths. NumPy adds and multiplies int64 modulo 2^64.
"""

import itertools

import numpy as np

LEAST, GREATEST = -(2**63), 2**63 - 1
FOLDS = {"sum": np.add, "prod": np.multiply, "min": np.minimum, "max": np.maximum}
START = {"sum": 0, "prod": 1, "min": GREATEST, "max": LEAST}


def numbers(count, seed):
    """Some elements, small ones and those at the ends of int64."""
    rng = np.random.default_rng(seed)
    cells = rng.integers(-9, 10, count, dtype=np.int64)
    if count > 3:
        cells[rng.integers(count)] = GREATEST
        cells[rng.integers(count)] = LEAST
    return cells


def array(shape, seed):
    return numbers(int(np.prod(shape, dtype=np.int64)), seed).reshape(shape)


def block(a):
    return [int(n) for n in a.shape], [int(x) for x in a.reshape(-1)]


def reduced(fold, axes, inputs):
    start = np.int64(START[fold])
    parts = [FOLDS[fold].reduce(a, axis=tuple(axes), initial=start, dtype=np.int64) for a in inputs]
    total = parts[0]
    for part in parts[1:]:
        total = FOLDS[fold](total, part)
    return np.asarray(total, dtype=np.int64)


def reductions():
    """Each fold along the first axis, the last, all, none, and axes that don't lie side by side; several inputs."""
    shapes = [
        ([(5,)], [0]),
        ([(5,)], []),
        ([()], []),
        ([(3, 4)], [0]),
        ([(3, 4)], [1]),
        ([(3, 4)], [0, 1]),
        ([(3, 4)], [1, 0]),
        ([(2, 3, 4)], [1]),
        ([(2, 3, 4)], [0, 2]),
        ([(2, 1, 4)], [0, 2]),
        ([(2, 3, 4, 2)], [1, 2]),
        ([(2, 3, 4, 2)], [0, 3]),
        ([(3, 4), (2, 4), (1, 4)], [0]),
        ([(3, 4), (3, 1)], [1]),
        ([(2, 3), (2, 3)], [0, 1]),
    ]
    empty = [([(0, 3)], [0]), ([(3, 0)], [0]), ([(0, 3)], [1]), ([(0, 3), (2, 3)], [0])]
    for at, ((inputs, axes), fold) in enumerate(itertools.product(shapes, FOLDS)):
        blocks = [array(shape, 100 * at + k) for k, shape in enumerate(inputs)]
        yield "reduce", {"fold": fold, "axes": axes}, blocks, reduced(fold, axes, blocks)
    for at, ((inputs, axes), fold) in enumerate(itertools.product(empty, ["sum", "prod"])):
        blocks = [array(shape, 7000 + 100 * at + k) for k, shape in enumerate(inputs)]
        yield "reduce", {"fold": fold, "axes": axes}, blocks, reduced(fold, axes, blocks)


def contractions():
    """Products of matrices, with their axes turned, over several axes, over none, and over an axis of length 0."""
    rows = [
        ((2, 3), (3, 4), [1], [0]),
        ((3, 2), (3, 4), [0], [0]),
        ((2, 3), (4, 3), [1], [1]),
        ((3,), (3,), [0], [0]),
        ((2, 3, 4), (4, 3, 5), [2, 1], [0, 1]),
        ((2, 3, 4), (3, 4, 5), [1, 2], [0, 1]),
        ((2, 3, 4), (5, 2, 4), [0, 2], [1, 2]),
        ((2, 3), (4,), [], []),
        ((), (2, 2), [], []),
        ((2, 0), (0, 3), [1], [0]),
        ((0, 2), (2, 3), [1], [0]),
    ]
    for at, (left, right, left_axes, right_axes) in enumerate(rows):
        blocks = [array(left, 9000 + at), array(right, 9500 + at)]
        result = np.tensordot(blocks[0], blocks[1], axes=(left_axes, right_axes))
        given = {"left": 0, "right": 1, "left_axes": left_axes, "right_axes": right_axes}
        yield "contract", given, blocks, np.asarray(result, dtype=np.int64)
        given = {"left": 1, "right": 0, "left_axes": left_axes, "right_axes": right_axes}
        yield "contract", given, blocks[::-1], np.asarray(result, dtype=np.int64)
    square = array((3, 3), 9999)
    given = {"left": 0, "right": 0, "left_axes": [1], "right_axes": [0]}
    yield "contract", given, [square], np.tensordot(square, square, axes=([1], [0]))


def assemblies():
    """Blocks side by side, parts of blocks, whole rows, single elements, an empty part and a shape of no axes."""
    def made(shape, pieces, blocks):
        result = np.zeros(shape, dtype=np.int64)
        for source, start, to, lengths in pieces:
            here = tuple(slice(s, s + n) for s, n in zip(to, lengths))
            there = tuple(slice(s, s + n) for s, n in zip(start, lengths))
            result[here] = blocks[source][there]
        return "assemble", {"shape": list(shape), "pieces": pieces}, blocks, result

    a, b = array((2, 3), 1), array((4, 3), 2)
    yield made((6, 3), [(0, [0, 0], [0, 0], [2, 3]), (1, [0, 0], [2, 0], [4, 3])], [a, b])
    yield made((2, 4), [(0, [0, 1], [0, 0], [2, 2]), (1, [2, 0], [0, 2], [2, 2])], [a, b])
    yield made((3, 3), [(1, [1, 0], [1, 0], [2, 3]), (0, [1, 0], [0, 0], [1, 3])], [a, b])
    yield made((2, 2), [(0, [0, 2], [0, 0], [1, 1]), (0, [1, 1], [0, 1], [1, 1]), (1, [3, 0], [1, 0], [1, 2])], [a, b])
    yield made((2, 3), [(0, [0, 0], [0, 0], [2, 3]), (1, [4, 0], [2, 0], [0, 3])], [a, b])
    c = array((2, 3, 4), 3)
    yield made((2, 3, 4), [(0, [0, 0, 0], [0, 0, 0], [2, 1, 4]), (0, [0, 1, 0], [0, 1, 0], [2, 2, 4])], [c])
    yield made((1, 2, 4), [(0, [1, 1, 0], [0, 0, 0], [1, 2, 4])], [c])
    yield made((), [(0, [], [], [])], [array((), 4)])
    yield made((0, 3), [], [a])


def cases():
    yield from reductions()
    yield from contractions()
    yield from assemblies()


def main():
    with np.errstate(over="ignore"):
        for kind, given, blocks, result in cases():
            print(kind, given, [block(a) for a in blocks], block(result))


if __name__ == "__main__":
    main()
