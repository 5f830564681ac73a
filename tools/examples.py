#!/usr/bin/env python3
"""Makes the inputs of the examples and what NumPy makes of them, by the script of each. Run by hand:

    /usr/bin/python3 tools/examples.py [FOLDER]

Each example is a folder of `examples`, or of FOLDER, with a job and make.py, which writes the inputs by fixed formulas, so that
they are the same at each run, and to `expected.npy` the array that the job saves, computed by NumPy alone.
"""
import subprocess
import sys
from pathlib import Path


def main(folder=Path(__file__).parent.parent / 'examples'):
    for script in sorted(Path(folder).glob('*/make.py')):
        subprocess.run([sys.executable, script], check=True)


if __name__ == '__main__':
    main(*sys.argv[1:])
