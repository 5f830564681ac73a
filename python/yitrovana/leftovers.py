"""What a run that is ended from outside leaves beside its saved files and in the folder of its blocks, and how it goes. It needs nothing
else of this package."""
import contextlib
import fcntl
import os
import re
import stat

PARTS = 16  # the program's own number of names beside a saved file
DISK = re.compile(r'\.dask-spill-[0-9]+-[0-9]+')


def remove(names, spill_folder):
    """Removes the parts of these files that nobody has locked, as the program does before it saves, and the empty files of disks that a
    program had no time to take the name from; no spill folder is the present one."""
    for name in names:
        target = os.path.realpath(name)
        for number in range(PARTS):
            with contextlib.suppress(OSError):
                remove_part(f'{target}.{number}.part')
    remove_disks(spill_folder or '.')


def remove_part(path):
    """A part is a regular file, and is locked while it is written."""
    descriptor = os.open(path, os.O_RDWR | os.O_NOFOLLOW | os.O_NONBLOCK)
    try:
        fcntl.flock(descriptor, fcntl.LOCK_EX | fcntl.LOCK_NB)
        own = os.fstat(descriptor)
        if stat.S_ISREG(own.st_mode) and os.path.samestat(own, os.lstat(path)):
            os.remove(path)
    finally:
        os.close(descriptor)


def remove_disks(folder):
    """The file of a disk is empty as long as it has a name; a program that runs misses nothing where it goes a moment earlier."""
    with contextlib.suppress(OSError):
        for name in filter(DISK.fullmatch, os.listdir(folder)):
            path = os.path.join(folder, name)
            there = os.lstat(path)
            if stat.S_ISREG(there.st_mode) and there.st_size == 0:
                os.remove(path)
