"""Arrays that are made of nothing: those of files, of one number, and that go up by a step."""
import builtins
import os
import tempfile
import weakref
from operator import index

import numpy as np

from .arrays import Array
from .elements import number
from .layouts import layout

# What the program reads of `.npy` files (docs/FORMATS.md): the types of elements, and the versions of headers.
TYPES, VERSIONS = ('<i8', '>i8', '<i4', '>i4', '<i2', '>i2', '|i1'), ((1, 0), (2, 0), (3, 0))


def open(path, chunks=None):
    """The array in a `.npy` file, as int64. Its head is read now, and its elements when they are computed."""
    path = file_name(path)
    shape, dtype = head_of(path)
    if dtype.str not in TYPES:
        how = f"convert it, as by `np.save(name, np.load({path!r}).astype('<i8'))`, and fractions by a scale"
        raise TypeError(f'{path} has elements of {dtype}, where the program reads {", ".join(TYPES)}: {how}')
    chunks = layout(shape, chunks)
    return Array('input', (), (path, os.path.abspath(path), shape, chunks), shape, chunks)


def head_of(path):
    """The shape and the type of an array file, as NumPy reads them."""
    with builtins.open(path, 'rb') as file:
        try:
            version = np.lib.format.read_magic(file)
            if version not in VERSIONS:
                raise ValueError('the header is of version {}.{}, which the program does not read'.format(*version))
            file.seek(0)
            mapped = np.load(path, mmap_mode='r')
        except ValueError as why:
            raise ValueError(f'{path}: {why}') from None
    return mapped.shape, mapped.dtype


class TemporaryFile:
    """A file that goes with the array that is opened of it, or at once where none is."""

    def __enter__(self):
        file, self.path = tempfile.mkstemp(suffix='.npy')
        os.close(file)
        self.array = None
        return self

    def opened(self, chunks):
        self.array = open(self.path, chunks)
        weakref.finalize(self.array, os.remove, self.path)
        return self.array

    def __exit__(self, *_):
        if self.array is None:
            os.remove(self.path)


def file_name(path):
    """A name as the language quotes it."""
    path = os.fsdecode(path)
    if not 1 <= len(path) <= 255 or any(not 32 <= ord(byte) <= 126 or byte in '"\\' for byte in path):
        raise ValueError(f'the name {path!r} can not stand in a job: give 1 to 255 characters of ASCII, without a quote and a backslash')
    return path


def shape_of(shape):
    shape = tuple(map(index, shape)) if isinstance(shape, (tuple, list)) else (index(shape),)
    if any(length < 0 for length in shape):
        raise ValueError('negative dimensions are not allowed')
    return shape


def full(shape, fill_value, chunks=None):
    """An array of one number."""
    shape = shape_of(shape)
    chunks = layout(shape, chunks)
    return Array('full', (), (shape, number(fill_value), chunks), shape, chunks)


def zeros(shape, chunks=None):
    """`full` of 0."""
    return full(shape, 0, chunks)


def ones(shape, chunks=None):
    """`full` of 1."""
    return full(shape, 1, chunks)


def ramp(shape, start, step, chunks=None):
    """An array that begins with `start` and goes up by `step` in row-major order."""
    shape = shape_of(shape)
    chunks = layout(shape, chunks)
    return Array('ramp', (), (shape, number(start), number(step), chunks), shape, chunks)


def arange(start, stop=None, step=1, chunks=None):
    """`ramp` of one axis, by NumPy's rules for its length."""
    start, stop, step = (0, start, step) if stop is None else (start, stop, step)
    start, stop, step = number(start), number(stop), number(step)
    return ramp(len(range(start, stop, step)), start, step, chunks)
