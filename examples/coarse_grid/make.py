#!/usr/bin/env python3
"""Makes the input of this example, and expected.npy: what NumPy makes of it."""
from pathlib import Path

import numpy as np

here = Path(__file__).parent

i = np.arange(36 * 72, dtype='<i8').reshape(36, 72)
fine = (3 * i * i + 19 * i) % 37
np.save(here / 'fine.npy', fine)

np.save(here / 'expected.npy', fine.reshape(18, 2, 36, 2).sum(axis=(1, 3)))
