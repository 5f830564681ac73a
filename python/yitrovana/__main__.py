"""`python3 -m yitrovana WORDS ..` runs the program with these words, as `./dask` does in a clone."""
import os
import sys

from .commands import program

if __name__ == '__main__':
    words = program() + sys.argv[1:]
    os.execv(words[0], words)
