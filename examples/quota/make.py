#!/usr/bin/env python3
"""Makes the input of this example, and expected.npy: what NumPy makes of it."""
from pathlib import Path

import numpy as np

here = Path(__file__).parent

i = np.arange(52 * 30, dtype='<i8').reshape(52, 30)
catches = (3 * i * i + 17 * i) % 43
np.save(here / 'catches.npy', catches)

is_over = catches.sum(axis=0) > 1090
np.save(here / 'expected.npy', np.where(is_over, catches, 0))
