"""Parts of arrays: integers, and slices by Python's rules."""
from operator import index

import numpy as np

from .arrays import Array
from .layouts import taken_pieces
from .refusals import refused


def part(a, key):
    """`a[key]`."""
    parts = key if isinstance(key, tuple) else (key,)
    for one in parts:
        check(one)
    parts = without_dots(parts, a.ndim)
    if len(parts) > a.ndim:
        raise IndexError(f'{len(parts)} parts for {a.ndim} axes')
    written, shape, chunks = [], [], []
    for axis, one in enumerate(parts):
        length = a.shape[axis]
        if isinstance(one, slice):
            taken = range(length)[one]
            written.append(text_of(taken, length))
            shape.append(len(taken))
            chunks.append(a.chunks[axis] if written[-1] == ':' else taken_pieces(a.chunks[axis], taken))
        else:
            written.append(str(place_of(one, length, axis)))
    if all(text == ':' for text in written):
        return a
    rest = len(parts)
    return Array('slice', (a,), tuple(written), tuple(shape) + a.shape[rest:], tuple(chunks) + a.chunks[rest:])


def check(one):
    """Refuses what NumPy takes in an index, and the language has not."""
    if one is None:
        raise refused('None', '`None` in an index')
    if isinstance(one, (bool, np.bool_, Array)) or getattr(one, 'dtype', None) == bool:
        raise refused('mask', 'index by a mask or an array')
    if isinstance(one, (list, np.ndarray)) and np.ndim(one):
        raise refused('list', 'index by a list')


def without_dots(parts, axes):
    """The parts with as many whole axes as `...` stands for."""
    dots = [at for at, one in enumerate(parts) if one is Ellipsis]
    if len(dots) > 1:
        raise IndexError('an index has at most one `...`')
    return parts if not dots else parts[:dots[0]] + (slice(None),) * (axes - len(parts) + 1) + parts[dots[0] + 1:]


def place_of(one, length, axis):
    """The place of an index from the front."""
    at = index(one)
    if not -length <= at < length:
        raise IndexError(f'index {at} is out of bounds for axis {axis} with size {length}')
    return at % length


def text_of(taken, length):
    """A range of an axis as a slice that the language takes, with no bound and no step that it would clip."""
    if len(taken) == 0:
        return '0:0' if length else ':'
    if len(taken) == 1:
        return ':' if length == 1 else f'{taken[0]}:{taken[0] + 1}'
    if taken.step == 1:
        return ':' if len(taken) == length else f'{taken[0]}:{taken[-1] + 1}'
    start = '' if taken[0] == (0 if taken.step > 0 else length - 1) else taken[0]
    end = taken[-1] + (1 if taken.step > 0 else -1)
    return f'{start}:{"" if end in (-1, length) else end}:{taken.step}'
