#!/usr/bin/env python3
"""Makes the input of this example, and expected.npy: what NumPy makes of it."""
from pathlib import Path

import numpy as np

here = Path(__file__).parent

counts = np.array([1, 2, 3], '<i8')
np.save(here / 'counts.npy', counts)

np.save(here / 'expected.npy', counts + 1)
