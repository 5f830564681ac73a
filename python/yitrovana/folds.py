"""Sums, products, least and largest elements over axes."""
from operator import index

import numpy as np

from .arrays import Array
from .elements import array
from .refusals import refused

AxisError = getattr(np, 'exceptions', np).AxisError


def axes_of(axes, count):
    """Axes as the language counts them, each once."""
    chosen = []
    for axis in axes if isinstance(axes, (tuple, list)) else (axes,):
        axis = index(axis)
        if not -count <= axis < count:
            raise AxisError(axis, count)
        chosen.append(axis % count)
    if len(set(chosen)) < len(chosen):
        raise ValueError(f'an axis is listed twice in {axes}')
    return tuple(chosen)


def fold(operation, a, axis=None, dtype=None, out=None, keepdims=False, split_every=None):
    """The result over the axes; `split_every` is how many partial results are joined at once."""
    a = array(a, operation)
    check(dtype, out, keepdims, split_every)
    axes = tuple(range(a.ndim)) if axis is None else tuple(sorted(axes_of(axis, a.ndim)))
    if operation in ('min', 'max') and any(a.shape[axis] == 0 for axis in axes):
        raise ValueError(f'zero-size array to reduction operation {operation}, which has no identity')
    left = [axis for axis in range(a.ndim) if axis not in axes]
    shape, chunks = (tuple(of[axis] for axis in left) for of in (a.shape, a.chunks))
    return Array(operation, (a,), (axes, split_every), shape, chunks)


def check(dtype, out, keepdims, split_every):
    """The words of NumPy and of Dask that a fold has no use for."""
    if keepdims is not False and keepdims is not np._NoValue:
        raise refused('keepdims')
    if dtype is not None and np.dtype(dtype) != Array.dtype:
        raise refused('astype', f'dtype {np.dtype(dtype)}')
    if out is not None:
        raise refused('out', '`out`')
    if split_every is not None and index(split_every) < 2:
        raise ValueError(f'split_every {split_every}: at least 2 partial results are joined')


def sum(a, axis=None, dtype=None, out=None, keepdims=False, split_every=None):
    """The sum over the axes, or over all; that of no elements is 0."""
    return fold('sum', a, axis, dtype, out, keepdims, split_every)


def prod(a, axis=None, dtype=None, out=None, keepdims=False, split_every=None):
    """The product over the axes, or over all; that of no elements is 1."""
    return fold('prod', a, axis, dtype, out, keepdims, split_every)


def min(a, axis=None, out=None, keepdims=False, split_every=None):
    """The least element along the axes, or of all."""
    return fold('min', a, axis, None, out, keepdims, split_every)


def max(a, axis=None, out=None, keepdims=False, split_every=None):
    """The largest element along the axes, or of all."""
    return fold('max', a, axis, None, out, keepdims, split_every)
