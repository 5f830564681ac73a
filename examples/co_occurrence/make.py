#!/usr/bin/env python3
"""Makes the input of this example, and expected.npy: what NumPy makes of it."""
from pathlib import Path

import numpy as np

here = Path(__file__).parent

i = np.arange(15 * 200, dtype='<i8').reshape(15, 200)
counts = np.maximum((7 * i * i + 13 * i) % 31 - 20, 0)
np.save(here / 'counts.npy', counts)

is_seen = np.minimum(counts, 1)
np.save(here / 'expected.npy', np.tensordot(is_seen, is_seen, axes=([1], [1])))
