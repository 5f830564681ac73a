"""Lazy arrays: each is an operation of the job language on arrays before it, with its shape, its chunks and its line of Python.

The operators, and the methods that make other arrays, are put on the class by `names`.
"""
from math import prod

import numpy as np

from . import limits
from .places import caller
from .refusals import INSTEAD, refused


class Array:
    """An array that is computed by `compute` or `save`, and of which slices, sums and the like make others."""

    def __init__(self, operation, operands, parameters, shape, chunks):
        limits.check_shape(shape)
        self.operation, self.operands, self.parameters = operation, operands, parameters
        self.shape, self.chunks, self.place = shape, chunks, caller()
        limits.warn(self)

    dtype = np.dtype('<i8')
    ndim = property(lambda self: len(self.shape))
    size = property(lambda self: prod(self.shape))
    itemsize = property(lambda self: 8)
    nbytes = property(lambda self: 8 * self.size)
    numblocks = property(lambda self: tuple(map(len, self.chunks)))
    npartitions = property(lambda self: prod(self.numblocks))
    chunksize = property(lambda self: tuple(map(max, self.chunks)))
    __hash__ = object.__hash__

    def __len__(self):
        if not self.shape:
            raise TypeError('len() of an array without axes')
        return self.shape[0]

    def __iter__(self):
        if not self.shape:
            raise TypeError('iteration over an array without axes')
        return (self[k] for k in range(self.shape[0]))

    def __repr__(self):
        return f'yitrovana.Array<{self.operation}, shape={self.shape}, dtype=int64, chunksize={self.chunksize}>'

    def __getattr__(self, name):
        if name in INSTEAD:
            raise AttributeError(str(refused(name)))
        raise AttributeError(f'an array of yitrovana has no {name!r}')

    def __bool__(self):
        raise refused('truth', 'truth of an array')

    def __int__(self):
        raise refused('truth', 'number of an array')

    __float__ = __int__

    def __setitem__(self, key, value):
        raise refused('set', 'assignment to elements')

    def __array__(self, dtype=None, copy=None):
        if copy is False:
            raise ValueError('the elements are computed, so they are always a copy')
        return np.asarray(self.compute(), dtype)

    def astype(self, dtype):
        """This array, for its own dtype; there is no other."""
        if np.dtype(dtype) != self.dtype:
            raise refused('astype', f'dtype {np.dtype(dtype)}')
        return self

    def job(self, file='result.npy'):
        """The text of the job that saves this array in a file."""
        from .text import Job
        return Job({file: self}).text

    def to_dask(self):
        """The array of `dask.array` with the same elements and blocks, for what Dask alone does with it, as `to_zarr`."""
        from .cluster import to_dask
        return to_dask(self)

    def graph(self):
        """The operations that this array stands on, as a picture that a notebook shows, and with counts of tasks."""
        from .graphs import Graph
        return Graph([self])

    def save(self, path, **options):
        """Computes the array into a file; the options are those of `yitrovana.save`."""
        from .running import save
        save({path: self}, **options)

    def compute(self, **options):
        """NumPy's array of the elements; the options are those of `yitrovana.save`."""
        from .running import compute
        return compute(self, **options)

    def _repr_html_(self):
        from .pictures import html
        return html(self)
