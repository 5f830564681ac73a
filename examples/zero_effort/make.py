#!/usr/bin/env python3
"""Makes the inputs of this example, and expected.npy: what NumPy makes of them."""
from pathlib import Path

import numpy as np

here = Path(__file__).parent

i = np.arange(9 * 8, dtype='<i8').reshape(9, 8)
catches = (3 * i * i + 13 * i) % 290
hours = (5 * i * i + 7 * i) % 23 + 1
hours[7, 2] = 0  # nobody fished there
np.save(here / 'catches.npy', catches)
np.save(here / 'hours.npy', hours)

rate = np.floor_divide(catches, hours, where=hours != 0, out=np.full_like(catches, -999))
np.save(here / 'expected.npy', rate)
