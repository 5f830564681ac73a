"""Operations element by element: their operands are broadcast, and cut wherever one of them is."""
from operator import index

import numpy as np

from .arrays import Array
from .layouts import unify
from .refusals import refused


def number(value):
    """An int64 as a Python int."""
    if isinstance(value, (float, complex, np.inexact)) or getattr(value, 'dtype', np.dtype(int)).kind in 'fc':
        raise refused('float', f'number {value!r}')
    if isinstance(value, np.ndarray) and value.ndim:
        raise refused('ndarray', "operand of NumPy's own")
    value = int(value) if isinstance(value, np.bool_) else index(value)
    if not -2**63 <= value < 2**63:
        raise OverflowError(f'limit number: {value} is no 64-bit integer')
    return value


def operand(value):
    return value if isinstance(value, Array) else Array('number', (), (number(value),), (), ())


def array(value, what):
    """An operand that has to be an array."""
    if isinstance(value, np.ndarray):
        raise refused('ndarray', "operand of NumPy's own")
    if not isinstance(value, Array):
        raise TypeError(f'{what} takes arrays of yitrovana, and no {type(value).__name__}')
    return value


def elementwise(operation, *operands):
    operands = tuple(map(operand, operands))
    axes = [broadcast(operands, back) for back in range(max(one.ndim for one in operands), 0, -1)]
    return Array(operation, operands, (), tuple(length for length, _ in axes), tuple(sizes for _, sizes in axes))


def broadcast(operands, back):
    """The length and the chunks of the result's axis that is this one from the end."""
    there = [(one.shape[-back], one.chunks[-back]) for one in operands if one.ndim >= back]
    lengths = {length for length, _ in there} - {1} or {1}
    if len(lengths) > 1:
        shapes = ' '.join(str(one.shape) for one in operands)
        raise ValueError(f'operands could not be broadcast together with shapes {shapes}')
    length = lengths.pop()
    return length, unify([sizes for own, sizes in there if own == length])


def negative(a):
    """`-a`."""
    a = array(a, 'negative')
    return Array('neg', (a,), (), a.shape, a.chunks)


def where(condition, *both):
    """`both[0]` where the condition isn't 0, else `both[1]`."""
    if len(both) != 2:
        raise refused('nonzero', '`where` of a condition alone')
    return elementwise('where', condition, *both)


def minimum(a, b):
    """The lesser, element by element."""
    return elementwise('minimum', a, b)


def maximum(a, b):
    """The larger, element by element."""
    return elementwise('maximum', a, b)
