#!/usr/bin/env python3
"""Makes the inputs of this example, and expected.npy: what NumPy makes of them."""
from pathlib import Path

import numpy as np

here = Path(__file__).parent

i = np.arange(6 * 8 * 10, dtype='<i8')
summer = ((9 * i * i + 2 * i) % 53).reshape(6, 8, 10)
winter = ((4 * i * i + 5 * i) % 59).reshape(10, 8, 6)
np.save(here / 'summer.npy', summer)
np.save(here / 'winter.npy', winter)

turned = winter.transpose(2, 1, 0)[:, ::-1]
np.save(here / 'expected.npy', np.ascontiguousarray(summer - turned))
