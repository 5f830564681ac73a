#!/usr/bin/env python3
"""Hourly counts over a grid, to the mean of each month, its mean over the years, and how far each month is from that.

    PYTHONPATH=python python3 python/examples/climatology.py [FOLDER]

The same is computed by dask.array where that is there, else by NumPy, and compared. The input is made in the folder, or in one that
goes at the end.
"""
import os
import sys
import tempfile

import numpy as np

import yitrovana as y

YEARS, ROWS, COLUMNS = 3, 12, 24
DAYS = np.array([31, 28, 31, 30, 31, 30, 31, 31, 30, 31, 30, 31])
HOURS = 24 * DAYS.sum()


def by_yitrovana():
    """Elements are whole numbers, so that each mean is rounded down."""
    hours = y.open('hours.npy', chunks=(1, 1460, ROWS, COLUMNS))  # year, hour, row, column
    calendar = y.open('calendar.npy', chunks=(12, 1460))          # month, hour: 1 where the hour is of the month
    sums = y.tensordot(calendar, hours, ([1], [1]))               # month, year, row, column
    means = (sums.T // calendar.sum(axis=1)).T
    normal = means.sum(axis=1) // YEARS                           # month, row, column
    anomaly = means.transpose(1, 0, 2, 3) - normal                # year, month, row, column
    y.save({'normal.npy': normal, 'anomaly.npy': anomaly}, workers=2, threads=2, memory='64MiB', progress=sys.stderr.isatty())
    return np.load('normal.npy'), np.load('anomaly.npy')


def by_dask(da):
    hours = da.from_array(np.load('hours.npy', mmap_mode='r'), chunks=(1, 1460, ROWS, COLUMNS))
    calendar = da.from_array(np.load('calendar.npy'), chunks=(12, 1460))
    sums = da.tensordot(calendar, hours, ([1], [1]))
    means = (sums.T // calendar.sum(axis=1)).T
    normal = means.sum(axis=1) // YEARS
    anomaly = means.transpose(1, 0, 2, 3) - normal
    return da.compute(normal, anomaly)


def by_numpy():
    hours = np.load('hours.npy')
    ends = np.cumsum([0, *24 * DAYS])
    means = np.stack([hours[:, a:b].sum(axis=1) // (b - a) for a, b in zip(ends, ends[1:])])
    normal = means.sum(axis=1) // YEARS
    return normal, means.transpose(1, 0, 2, 3) - normal


def make():
    """Counts by a fixed formula, and which hours a month has."""
    year, hour, row, column = np.ogrid[:YEARS, :HOURS, :ROWS, :COLUMNS]
    np.save('hours.npy', (hour % 24 * 37 + row * row * 11 + column * 7 + year * hour * column // 9) % 1009)
    np.save('calendar.npy', (np.repeat(np.arange(12), 24 * DAYS) == np.arange(12)[:, None]).astype('<i8'))


def main(folder):
    os.chdir(folder)
    make()
    normal, anomaly = by_yitrovana()
    try:
        import dask.array
        name, wanted = 'dask.array', by_dask(dask.array)
    except ImportError:
        name, wanted = 'NumPy', by_numpy()
    assert np.array_equal(normal, wanted[0]) and np.array_equal(anomaly, wanted[1])
    print(f'normal {normal.shape} and anomaly {anomaly.shape} are as {name} has them')


if __name__ == '__main__':
    if len(sys.argv) > 1:
        main(sys.argv[1])
    else:
        with tempfile.TemporaryDirectory() as temporary:
            main(temporary)
            os.chdir('/')
