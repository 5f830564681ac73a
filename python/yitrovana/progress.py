"""How far a run is, by the system's counts of what the process has read and written, and of the blocks that it keeps on disk.

It needs nothing else of this package, and the launcher's word --progress starts it as a program of its own.
"""
import os
import sys
import time
from collections import namedtuple

EVERY = 0.5  # seconds
# bytes but for the seconds; those read and written have blocks on disk too, which can pass what is to be read and to be written
Counts = namedtuple('Counts', 'seconds read written disk to_read to_write')


def counts(pid, began, to_read, to_write):
    """The counts of a process; nothing where the system doesn't tell them."""
    try:
        with open(f'/proc/{pid}/io', encoding='ascii') as file:
            io = dict(line.split(': ') for line in file.read().splitlines())
        return Counts(time.monotonic() - began, int(io['rchar']), int(io['wchar']), on_disk(pid), to_read, to_write)
    except (OSError, ValueError, KeyError):
        return None


def on_disk(pid):
    """The bytes of the nameless files in which its workers keep blocks."""
    folder, total = f'/proc/{pid}/fd', 0
    for name in os.listdir(folder):
        try:
            if '/.dask-spill-' in os.readlink(f'{folder}/{name}'):
                total += os.stat(f'{folder}/{name}').st_size
        except OSError:
            pass  # it was closed since
    return total


def size(count):
    """Bytes in the largest unit of which there is one."""
    for unit in ('B', 'KiB', 'MiB'):
        if count < 1024:
            return f'{count:.0f} B' if unit == 'B' else f'{count:.1f} {unit}'
        count /= 1024
    return f'{count:.2f} GiB'


def text(of):
    disk = f', {size(of.disk)} of blocks on disk' if of.disk else ''
    return f'{of.seconds:5.1f} s: read {size(of.read)} of {size(of.to_read)}, wrote {size(of.written)} of {size(of.to_write)}{disk}'


class Line:
    """One line of a terminal, which is written anew."""

    def __init__(self, stream):
        self.stream = stream if stream.isatty() else None

    def __call__(self, of):
        if self.stream:
            width = os.get_terminal_size(self.stream.fileno()).columns or 80
            self.put('\r\033[K' + text(of)[:width - 1])

    def close(self):
        if self.stream:
            self.put('\r\033[K')

    def put(self, text):
        try:
            self.stream.write(text)
            self.stream.flush()
        except OSError:
            self.stream = None


class Bar:
    """The same by tqdm."""

    def __init__(self, tqdm, total):
        self.bar = tqdm(total=total, unit='B', unit_scale=True, unit_divisor=1024)

    def __call__(self, of):
        self.bar.n = min(of.read, of.to_read) + min(of.written, of.to_write)
        self.bar.set_postfix_str(f'{size(of.disk)} on disk' if of.disk else '')

    def close(self):
        self.bar.close()


def shown(total):
    """A bar of tqdm where that is there, else a line of standard error; nothing where neither a terminal nor a notebook shows it."""
    if not sys.stderr.isatty() and 'ipykernel' not in sys.modules:
        return Line(sys.stderr)
    try:
        from tqdm.auto import tqdm
    except ImportError:
        return Line(sys.stderr)
    return Bar(tqdm, total)
