#!/usr/bin/env python3
"""Makes the input of this example, and expected.npy: what NumPy makes of it."""
from pathlib import Path

import numpy as np

here = Path(__file__).parent

i = np.arange(40 * 18, dtype='<i8').reshape(40, 18)
counts = (7 * i * i + 5 * i) % 89
np.save(here / 'counts.npy', counts)

total = counts.sum(axis=1, keepdims=True)
np.save(here / 'expected.npy', (2000 * counts + total) // (2 * total))
