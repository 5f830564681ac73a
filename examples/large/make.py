#!/usr/bin/env python3
"""Makes the input of this example, and expected.npy: what NumPy makes of it.

The input is a year of daily counts on a grid of one degree, 180 MiB, so it isn't kept in the repository: run this script first.
"""
from pathlib import Path

import numpy as np

here = Path(__file__).parent

days, rows, columns = 365, 180, 360
counts = np.lib.format.open_memmap(here / 'counts.npy', 'w+', '<i8', (days, rows, columns))
place = np.arange(rows * columns, dtype='<i8').reshape(rows, columns)
for day in range(days):
    counts[day] = (place * place * 31 + day * place * 17 + day * day * 7) % 1009
counts.flush()

mean = counts.sum(axis=0) // days
largest = np.zeros(rows, dtype='<i8')
for day in range(days):
    largest = np.maximum(largest, np.abs(counts[day] - mean).max(axis=1))
np.save(here / 'expected.npy', largest)
