"""Chunks: for each axis the sizes that add up to its length, as docs/OPERATIONS.md has them."""
from bisect import bisect_right
from itertools import accumulate
from math import prod
from operator import index

AUTO = 2**20  # elements of a block, where no chunks are given
MOST = 2**20  # chunks of an axis: far more than any run takes, and few enough for a list


def layout(shape, chunks):
    """The sizes on each axis, of what a caller gives: nothing, a number for every axis, or one entry an axis."""
    if chunks is None or chunks == 'auto':
        chunks = automatic(shape)
    elif not isinstance(chunks, (tuple, list)):
        chunks = (chunks,) * len(shape)
    elif len(shape) == 1 and len(chunks) > 1 and all(isinstance(size, int) for size in chunks):
        chunks = (tuple(chunks),)
    if len(chunks) != len(shape):
        raise ValueError(f'chunks: {len(chunks)} given for {len(shape)} axes: write one entry an axis')
    return tuple(sizes(axis, length, entry) for axis, (length, entry) in enumerate(zip(shape, chunks)))


def sizes(axis, length, entry):
    """The sizes of one axis, of a list or of a number."""
    if isinstance(entry, (tuple, list)):
        return listed(axis, length, tuple(map(index, entry)))
    if entry is None or isinstance(entry, str):
        raise TypeError(f'chunks: axis {axis}: there is no {entry!r}: write a number, or -1 for the whole axis')
    size = index(entry)
    if size == -1:
        size = max(length, 1)
    if size < 1:
        raise ValueError(f'chunks: axis {axis}: a chunk has at least one element')
    if length == 0:
        return (0,)
    if length > size * MOST:
        raise ValueError(f'chunks: axis {axis}: more than {MOST} chunks: take larger ones')
    return (size,) * (length // size) + ((length % size,) if length % size else ())


def listed(axis, length, entry):
    if length == 0 and entry == (0,):
        return entry
    if not entry or min(entry) < 1:
        raise ValueError(f'chunks: axis {axis}: a chunk has at least one element')
    if sum(entry) != length:
        raise ValueError(f'chunks: axis {axis}: sum {sum(entry)}, length {length}')
    return entry


def automatic(shape):
    """Whole axes, the longest halved until a block is small."""
    chosen = [max(length, 1) for length in shape]
    while prod(chosen) > AUTO:
        longest = chosen.index(max(chosen))
        chosen[longest] = (chosen[longest] + 1) // 2
    return tuple(chosen)


def unify(layouts):
    """The sizes that are cut wherever one of these is."""
    if len(set(layouts)) == 1:
        return layouts[0]
    ends = sorted(set().union(*(accumulate(one) for one in layouts)))
    return tuple(end - before for before, end in zip([0] + ends, ends))


def under(chunks, shape):
    """How an operand of this shape is cut, where the result of an operation element by element is cut so."""
    return tuple(own if sum(own) == length else (1,) for own, length in zip(chunks[len(chunks) - len(shape):], shape))


def taken_pieces(chunks, taken):
    """The sizes of the pieces of chunks that have an element in the range, in its order."""
    ends, pieces, at = list(accumulate(chunks)), [], 0
    while at < len(taken):
        chunk = bisect_right(ends, taken[at])
        last = ends[chunk] - 1 if taken.step > 0 else ends[chunk] - chunks[chunk]
        pieces.append(min(len(taken) - at, (last - taken[at]) // taken.step + 1))
        at += pieces[-1]
    return tuple(pieces) or (0,)
