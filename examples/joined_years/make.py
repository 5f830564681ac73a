#!/usr/bin/env python3
"""Makes the inputs of this example, and expected.npy: what NumPy makes of them."""
from pathlib import Path

import numpy as np

here = Path(__file__).parent

i = np.arange(12 * 25, dtype='<i8').reshape(12, 25)
before = (5 * i * i + 11 * i) % 97
after = (7 * i * i + 3 * i) % 101
np.save(here / 'before.npy', before)
np.save(here / 'after.npy', after)

both = np.concatenate([before, after])
np.save(here / 'expected.npy', both[1:] - both[:-1])
