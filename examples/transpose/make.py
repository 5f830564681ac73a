#!/usr/bin/env python3
"""Makes the inputs of this example, and expected.npy: what NumPy makes of them."""
from pathlib import Path

import numpy as np

here = Path(__file__).parent

i = np.arange(4 * 6, dtype='<i8')
east = ((9 * i * i + 2 * i) % 53).reshape(4, 6)
west = ((4 * i * i + 5 * i) % 59).reshape(6, 4)
np.save(here / 'east.npy', east)
# NumPy writes this one in column-major order, as it does with a transposed array
np.save(here / 'west.npy', np.asfortranarray(west))

np.save(here / 'expected.npy', np.ascontiguousarray(east + west.T))
