#!/usr/bin/env python3
"""Makes the inputs of this example, and expected.npy: what NumPy makes of them."""
from pathlib import Path

import numpy as np

here = Path(__file__).parent

i = np.arange(5 * 4, dtype='<i8').reshape(5, 4)
flows = (2 * i * i + 7 * i) % 23
i = np.arange(4 * 3, dtype='<i8').reshape(4, 3)
weights = (6 * i * i + i) % 19
np.save(here / 'flows.npy', flows)
np.save(here / 'weights.npy', weights)

np.save(here / 'expected.npy', flows @ weights)
