#!/usr/bin/env python3
"""The package on a cluster of Dask.distributed in this process, and arrays from and to `dask.array`, against NumPy.

    python3 tests/cluster_cases.py

It prints a line for each difference, and at last how many cases agree and how many differ.
"""
import os
import random
import sys
import tempfile

import numpy as np

os.environ.setdefault('DASK_LOGGING__DISTRIBUTED', 'critical')  # before Dask is imported
sys.path.insert(0, os.path.dirname(os.path.dirname(os.path.abspath(__file__))))
import dask.array as da  # noqa: E402
import yitrovana as y  # noqa: E402
from dask.distributed import Client  # noqa: E402
from trees import Tree  # noqa: E402


def trees(client):
    """Random trees by the cluster, and as arrays of dask.array."""
    for seed in range(6):
        draw = random.Random(seed)
        with np.errstate(all='ignore'):
            grown = Tree(draw)
        a, m = grown.pool[-1]
        yield f'tree {seed}: {a.job()}', a.compute(command='dask', scheduler=client).tolist(), m.tolist()
        made = a.to_dask()
        yield f'tree {seed} in dask.array: {a.job()}', (made.chunks, made.compute().tolist()), (a.chunks, m.tolist())


def uses(client):
    grid = np.arange(24).reshape(4, 6)
    np.save('grid.npy', grid)
    a = y.open('grid.npy', chunks=(2, 3))
    y.save({'sum.npy': a + a, 'turned.npy': a.T}, command='dask', scheduler=client)
    yield 'two files', (np.load('sum.npy').tolist(), np.load('turned.npy').tolist()), ((grid + grid).tolist(), grid.T.tolist())
    report = y.report()
    yield 'the report', (report['saved'], report['finished by']), ({'sum.npy': (4, 6), 'turned.npy': (6, 4)}, 'dask.distributed')
    yield "the session's own client", a.sum().compute(command='dask'), grid.sum()
    wide = y.from_dask(da.from_array(grid.astype('i4'), chunks=(3, 2)) * 3, 'wide.npy')
    yield 'from dask.array', (wide.chunks, (wide - 1).compute().tolist()), (((3, 1), (2, 2, 2)), (grid * 3 - 1).tolist())
    whole = np.arange(4096).reshape(64, 64)
    summed = y.from_dask(da.from_array(whole, chunks=(64, 1)).cumsum(axis=0).rechunk((1, 64)))
    yield 'from dask.array without a path', (summed.chunks[1], summed.compute().tolist()), ((64,), whole.cumsum(axis=0).tolist())
    path = summed.parameters[1]
    del summed
    yield 'a file that goes with its array', os.path.exists(path), False
    yield 'from and to', y.from_dask(a.to_dask() + 1, 'next.npy').compute().tolist(), (grid + 1).tolist()
    yield 'what is left', sorted(name for name in os.listdir() if name.endswith('.part')), []
    long = a
    for k in range(60):
        long = long + k
    yield 'a long sum', long.compute(command='dask', scheduler=client).tolist(), (grid + sum(range(60))).tolist()
    try:
        import zarr  # noqa: F401
    except ImportError:
        return
    (a * 2).to_dask().to_zarr('grid.zarr')
    yield 'zarr', y.from_dask(da.from_zarr('grid.zarr'), 'again.npy').compute().tolist(), (grid * 2).tolist()


def refusals(client):
    """What, the exception, a part of its text, and a call."""
    a = y.open('grid.npy', chunks=(2, 3))
    yield 'zero division', ZeroDivisionError, f'in the part [2:4, 3:6] of the array (4, 6) of {__file__}, line', \
        lambda: (a // (a - 23)).compute(command='dask', scheduler=client)
    yield 'a folder', FileNotFoundError, 'its folder is not there', lambda: y.save({'no/a.npy': a}, command='dask', scheduler=client)
    yield 'no cluster', ConnectionError, 'dask: cluster', lambda: a.compute(command='dask', scheduler='tcp://127.0.0.1:1', timeout=1)
    yield 'an option of another command', TypeError, 'takes no `memory`', lambda: a.compute(command='dask', memory=1)
    yield 'an option of this command alone', TypeError, 'takes no `scheduler`', lambda: a.compute(scheduler='tcp://127.0.0.1:1')
    yield 'fractions', TypeError, 'float64', lambda: y.from_dask(da.ones(3), 'f.npy')
    yield 'unknown lengths', ValueError, 'compute_chunk_sizes', lambda: y.from_dask(unknown(), 'f.npy')


def unknown():
    whole = da.arange(6, chunks=3)
    return whole[whole > 2]


def answer(kind, part, call):
    try:
        return call()
    except Exception as error:  # its kind is what is looked at
        return isinstance(error, kind) and part in str(error) or repr(error)


def main():
    equal = different = 0
    with tempfile.TemporaryDirectory() as folder, \
            Client(processes=False, n_workers=2, threads_per_worker=2, dashboard_address='127.0.0.1:0', silence_logs=50) as client:
        os.chdir(folder)
        cases = [*trees(client), *uses(client)]
        cases += [(what, answer(kind, part, call), True) for what, kind, part, call in refusals(client)]
        for what, got, wanted in cases:
            # an answer of NumPy is no bool of Python
            same = bool(got == wanted)
            equal, different = equal + same, different + (not same)
            if not same:
                print(f'{what}: got\n{got}\nwanted\n{wanted}')
        os.chdir('/')
    print(f'equal {equal} different {different}')
    return different > 0


if __name__ == '__main__':
    sys.exit(main())
