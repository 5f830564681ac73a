#!/usr/bin/env python3
"""Makes the input of this example, and expected.npy: what NumPy makes of it."""
from pathlib import Path

import numpy as np

here = Path(__file__).parent

i = np.arange(36 * 20, dtype='<i8').reshape(36, 20)
months = (5 * i * i + 11 * i) % 97
months[(i % 7 == 3) | (i % 20 == 11)] = -999  # and place 11 was never counted
np.save(here / 'months.npy', months)

is_there = months != -999
total = np.where(is_there, months, 0).sum(axis=0)
number = is_there.sum(axis=0)
np.save(here / 'expected.npy', np.where(number, total // np.maximum(number, 1), -999))
