"""NumPy's names over the proved program: `import yitrovana as y`."""
from . import names as _names  # puts the operators on the arrays
from .arrays import Array
from .elements import maximum, minimum, where
from .folds import max, min, prod, sum
from .limits import LimitWarning
from .refusals import INSTEAD as _INSTEAD
from .refusals import refused as _refused
from .running import report, save
from .shapes import concatenate, matmul, rechunk, tensordot, transpose
from .sources import arange, full, ones, open, ramp, zeros
from .text import Job as _Job

# without the names of Python's own functions
__all__ = ['Array', 'LimitWarning', 'arange', 'concatenate', 'from_dask', 'full', 'graph', 'job', 'matmul', 'maximum', 'minimum', 'ones', 'prod', 'ramp',
           'rechunk', 'report', 'save', 'tensordot', 'transpose', 'where', 'zeros']


def job(arrays):
    """The text of the job that saves arrays in files, `{"b.npy": b}`."""
    return _Job(arrays).text


def from_dask(array, path=None):
    """The same array as one of `dask.array`. Where the language has its operations, nothing is computed; else Dask computes it into the
    `.npy` file at `path`, without a path into a temporary one, and that is opened."""
    from .cluster import from_dask as convert
    return convert(array, path)


def graph(*arrays):
    """The operations that the arrays stand on, as a picture that a notebook shows, and with counts of tasks."""
    from .graphs import Graph
    return Graph(arrays)


def __getattr__(name):
    if name in _INSTEAD:
        raise AttributeError(str(_refused(name)))
    raise AttributeError(f'yitrovana has no {name!r}')
