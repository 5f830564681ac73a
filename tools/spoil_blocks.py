"""Spoils blocks that workers of a run have put on disk, while the run goes on: flips a bit of a file, cuts it, or blanks some of it.

    python3 tools/spoil_blocks.py FOLDER SEED WORDS ..

Runs the command WORDS in FOLDER. The files have no name, and are reached by the descriptors of the process. Prints how often one
was spoiled in each of the three ways, and ends with the command's status.
"""
import os
import random
import subprocess
import sys
import time

WAYS = ('flipped', 'cut', 'blanked')
# the most bytes that are blanked at once
BLANK = 65536


def spoil(path, way, draw):
    """Whether there were bytes to be spoiled."""
    try:
        size = os.path.getsize(path)
        if size == 0:
            return False
        at = draw.randrange(size)
        if way == 'cut':
            os.truncate(path, at)
            return True
        with open(path, 'r+b') as it:
            it.seek(at)
            if way == 'blanked':
                it.write(bytes(min(BLANK, size - at)))
                return True
            byte = it.read(1)
            it.seek(at)
            it.write(bytes([byte[0] ^ 1 << draw.randrange(8)]))
        return True
    except (OSError, IndexError):
        # the run has let go of it in between
        return False


def disks(process):
    """The files of the process that have the blocks."""
    folder, found = f'/proc/{process}/fd', []
    try:
        for number in sorted(os.listdir(folder), key=int):
            path = os.path.join(folder, number)
            if '/.dask-spill-' in os.readlink(path):
                found.append(path)
    except OSError:
        # a descriptor, or the process, is gone
        pass
    return found


def main():
    folder, seed, words = sys.argv[1], int(sys.argv[2]), sys.argv[3:]
    draw, counts = random.Random(seed), dict.fromkeys(WAYS, 0)
    child = subprocess.Popen(words, cwd=folder, stdout=subprocess.DEVNULL)
    while child.poll() is None:
        for disk in disks(child.pid):
            way = draw.choice(WAYS)
            counts[way] += spoil(disk, way, draw)
        time.sleep(0.002)
    print(', '.join(f'{way} {counts[way]}' for way in WAYS))
    sys.exit(child.returncode)


if __name__ == '__main__':
    main()
