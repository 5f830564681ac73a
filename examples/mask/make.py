#!/usr/bin/env python3
"""Makes the input of this example, and expected.npy: what NumPy makes of it."""
from pathlib import Path

import numpy as np

here = Path(__file__).parent

i = np.arange(8 * 7, dtype='<i8').reshape(8, 7)
catches = (3 * i * i + 13 * i) % 29
np.save(here / 'catches.npy', catches)

np.save(here / 'expected.npy', np.where(catches >= 10, catches, 0))
