"""Axes and chunks changed, arrays put one behind the other, and sums of products."""
from operator import index

from .arrays import Array
from .elements import array
from .folds import axes_of
from .layouts import layout, unify
from .refusals import refused


def transpose(a, axes=None):
    """The axes in another order: turned round, or as listed."""
    a = array(a, 'transpose')
    axes = tuple(range(a.ndim))[::-1] if axes is None else axes_of(axes, a.ndim)
    if len(axes) != a.ndim:
        raise ValueError(f"axes don't match array: {len(axes)} axes given, where the array has {a.ndim}")
    if axes == tuple(range(a.ndim)):
        return a
    shape, chunks = (tuple(of[axis] for axis in axes) for of in (a.shape, a.chunks))
    return Array('transpose', (a,), axes, shape, chunks)


def rechunk(a, chunks):
    """The same array in other chunks, which are given as to `open`, or for some axes by `{axis: chunks}`."""
    a = array(a, 'rechunk')
    if isinstance(chunks, dict):
        chunks = {axes_of(axis, a.ndim)[0]: entry for axis, entry in chunks.items()}
        chunks = tuple(chunks.get(axis, own) for axis, own in enumerate(a.chunks))
    chunks = layout(a.shape, chunks)
    return a if chunks == a.chunks else Array('rechunk', (a,), chunks, a.shape, chunks)


def concatenate(arrays, axis=0):
    """Arrays one behind the other along an axis."""
    if axis is None:
        raise refused('flat', '`axis=None` of `concatenate`')
    arrays = tuple(array(one, 'concatenate') for one in arrays)
    if not arrays or not arrays[0].ndim:
        raise ValueError('concatenate takes at least one array, and each has an axis')
    axis, = axes_of(axis, arrays[0].ndim)
    beside = {one.shape[:axis] + one.shape[axis + 1:] for one in arrays}
    if len(beside) > 1 or len({one.ndim for one in arrays}) > 1:
        raise ValueError(f'concatenate: shapes {" ".join(str(one.shape) for one in arrays)} differ beside axis {axis}')
    shape, chunks = list(arrays[0].shape), [unify(sizes) for sizes in zip(*(beside_axis(one, axis) for one in arrays))]
    shape[axis] = sum(one.shape[axis] for one in arrays)
    chunks.insert(axis, tuple(size for one in arrays for size in one.chunks[axis] if size) or (0,))
    return Array('concatenate', arrays, (axis,), tuple(shape), tuple(chunks))


def beside_axis(a, axis):
    return a.chunks[:axis] + a.chunks[axis + 1:]


def tensordot(a, b, axes=2):
    """The sums of products over paired axes: so many, or those of two lists."""
    a, b = array(a, 'tensordot'), array(b, 'tensordot')
    first, second = paired_axes(a, b, axes)
    if [a.shape[axis] for axis in first] != [b.shape[axis] for axis in second]:
        raise ValueError(f'tensordot: shapes {a.shape} {b.shape} differ on the paired axes {first} {second}')
    shape, chunks = ([of[axis] for axis in range(len(of)) if axis not in first] for of in (a.shape, a.chunks))
    shape += [length for axis, length in enumerate(b.shape) if axis not in second]
    chunks += [sizes for axis, sizes in enumerate(b.chunks) if axis not in second]
    return Array('tensordot', (a, b), (first, second), tuple(shape), tuple(chunks))


def paired_axes(a, b, axes):
    if not isinstance(axes, (tuple, list)):
        count = index(axes)
        if not 0 <= count <= min(a.ndim, b.ndim):
            raise ValueError(f'tensordot: {count} axes of shapes {a.shape} {b.shape}')
        return tuple(range(a.ndim - count, a.ndim)), tuple(range(count))
    if len(axes) != 2:
        raise ValueError('tensordot: axes are a number, or two lists')
    return axes_of(axes[0], a.ndim), axes_of(axes[1], b.ndim)


def matmul(a, b):
    """`a @ b`, where the second operand has one or two axes."""
    a, b = array(a, '@'), array(b, '@')
    if not a.ndim or not b.ndim:
        raise ValueError('@ takes arrays with axes: write `a * b`')
    if b.ndim > 2:
        raise refused('matmul', f'`@` with a second operand of {b.ndim} axes')
    if a.shape[-1] != b.shape[0]:
        raise ValueError(f'matmul: shapes {a.shape} {b.shape} differ on the paired axes')
    return tensordot(a, b, ((a.ndim - 1,), (0,)))
