"""Runs job texts on a cluster of Dask.distributed. The words of its command are those of `python3 -m yitrovana.cluster`."""
import argparse
import contextlib
import fcntl
import itertools
import logging
import math
import os
import shutil
import stat
import sys
from concurrent.futures import CancelledError

import dask
import dask.array as da
import yitrovana_work as block_work
from dask.distributed import Client, LocalCluster, progress, wait
from distributed.diagnostics.plugin import UploadFile
from distributed.scheduler import KilledWorker

from . import array_files
from .block_arrays import Arrays
from .block_layouts import Blocks
from .job_text import Refused, read

TIMEOUT = 30  # seconds for a connection that doesn't come
READ, WRITE, CLUSTER, MEMORY = (5, 'read fault'), (6, 'write fault'), (7, 'cluster'), (8, 'out of memory')


@contextlib.contextmanager
def answered(errors, answer):
    """Answers these errors with a status and a line."""
    try:
        yield
    except errors as why:
        raise Refused(*answer) from why


class Words(argparse.ArgumentParser):
    def error(self, message):
        raise Refused(1, 'words')


def positive(word):
    number = int(word)
    if number < 1:
        raise ValueError(word)
    return number


def parse(words):
    parser = Words(prog='python3 -m yitrovana.cluster', allow_abbrev=False,
                   description='Runs a job text on a cluster of Dask.distributed, and saves the same files as the program. '
                               'Every worker has to see the files under the names that they have here.')
    parser.add_argument('job', metavar='JOB', help='the file of the job text')
    parser.add_argument('--scheduler', metavar='ADDRESS', help='that of a cluster, as tcp://127.0.0.1:8786; without it one is started here')
    parser.add_argument('--workers', type=positive, metavar='N', help='how many processes a cluster that is started here has; without it 4')
    parser.add_argument('--threads', type=positive, metavar='N', help='how many threads each of them has; without it 2')
    parser.add_argument('--timeout', type=positive, metavar='S', default=TIMEOUT, help=f'how many seconds a connection may take; without it {TIMEOUT}')
    parser.add_argument('--progress', action='store_true', help="shows Dask's own bar on a terminal's standard error")
    options = parser.parse_args(words)
    if options.scheduler and (options.workers or options.threads):
        parser.error('a cluster that is there has its own workers')
    return options


@contextlib.contextmanager
def connected(scheduler=None, workers=None, threads=None, timeout=TIMEOUT, processes=True):
    """A client of the cluster at an address, or of one that is started here, whose workers have what they are to run."""
    with contextlib.ExitStack() as stack:
        with answered((OSError, ValueError), CLUSTER):
            address = scheduler or stack.enter_context(LocalCluster(
                workers or 4, threads or 2, processes=processes, host='127.0.0.1' if processes else None, dashboard_address='127.0.0.1:0',
                silence_logs=logging.CRITICAL))
            client = stack.enter_context(Client(address, timeout=timeout, set_as_default=False))
            send(client)
        yield client


def send(client):
    """Gives the workers what they are to run. Those of this process load the module anew, so that its classes are named by it."""
    register = getattr(client, 'register_plugin', None) or client.register_worker_plugin  # as it was named before 2023.9
    register(UploadFile(block_work.__file__))


# ---- files

def open_regular(name):
    file = open(name, 'rb')
    if not stat.S_ISREG(os.fstat(file.fileno()).st_mode):
        file.close()
        raise OSError(name)
    return file


def read_text(name):
    with answered(OSError, READ), open_regular(name) as file:
        return file.read()


def read_heads(job):
    """Each input's path, type, order and first byte of data; all are opened before the first is read."""
    with answered(OSError, READ), contextlib.ExitStack() as stack:
        opened = {node: stack.enter_context(open_regular(name)) for node, name in job.inputs.items()}
        return {node: (os.path.realpath(job.inputs[node]),
                       *array_files.accepted(job.inputs[node], file, os.fstat(file.fileno()).st_size, job.nodes[node].shape))
                for node, file in opened.items()}


class Part:
    """A file beside a saved name, which takes the name once it is whole."""

    def __init__(self, name, shape):
        self.name, head = os.path.realpath(name), array_files.head(shape)
        if os.path.exists(self.name) and not os.path.isfile(self.name) or not os.path.isdir(os.path.dirname(self.name)):
            raise OSError(name)
        self.path, self.file = self.create()
        self.target = block_work.SavedFile(self.path, shape, len(head))
        self.file.write(head)
        self.file.truncate(len(head) + 8 * math.prod(shape))

    def create(self):
        """It stays locked until it is closed, since the program removes parts that nobody has locked."""
        for number in itertools.count():
            path = f'{self.name}.{number}.part'
            with contextlib.suppress(FileExistsError, FileNotFoundError, BlockingIOError):
                file = open(path, 'xb')
                fcntl.flock(file, fcntl.LOCK_EX | fcntl.LOCK_NB)
                if os.path.samestat(os.fstat(file.fileno()), os.stat(path)):
                    return path, file

    def keep(self):
        if os.path.exists(self.name):
            shutil.copymode(self.name, self.path)
        os.replace(self.path, self.name)

    def drop(self):
        with self.file, contextlib.suppress(OSError):
            os.remove(self.path)


# ---- the run

def first_zero_division(client, blocks, arrays):
    """Of the needed blocks that meet a zero divisor, the first one in the order of the program's tasks."""
    divided = [(node, index) for node, index in blocks.needed() if blocks.job.nodes[node].op in ('//', '%')]
    parts = {node: arrays.array(node).to_delayed() for node, _ in divided}
    futures = client.compute([dask.delayed(block_work.is_made)(parts[node][index]) for node, index in divided])
    wait(futures)
    met = {future.exception().args for future in futures if future.status == 'error'}
    node, index = next(place for place in divided if place in met)
    return f'zero division: node {node} block (' + ', '.join(map(str, index)) + ')'


def store(client, blocks, arrays, parts, show):
    """Has the cluster write each saved array into its part. Tasks are not nested into each other, as many would pass Python's stack."""
    saved = [arrays.array(node) for node in blocks.job.saves.values()]
    try:
        with dask.config.set({'optimization.fuse.active': False}), answered(block_work.ReadFault, READ), \
                answered(block_work.WriteFault, WRITE), answered(MemoryError, MEMORY), \
                answered((KilledWorker, OSError, CancelledError), CLUSTER):
            stored = client.compute(da.store(saved, [part.target for part in parts], lock=False, compute=False))
            if show:
                # Dask's own bar writes to standard output on a terminal, where the lines of the job are to stand alone
                with client.as_current(), contextlib.nullcontext() if show == 'notebook' else contextlib.redirect_stdout(sys.stderr):
                    progress(stored, notebook=show == 'notebook')
            stored.result()
    except block_work.ZeroDivision as why:
        raise Refused(4, first_zero_division(client, blocks, arrays)) from why


def save(client, blocks, arrays, show):
    """Makes all parts, and gives them their names once all are whole."""
    with contextlib.ExitStack() as stack:
        parts = []
        for name, node in blocks.job.saves.items():
            with answered(OSError, WRITE):
                parts.append(Part(name, blocks.job.nodes[node].shape))
            stack.callback(parts[-1].drop)
        store(client, blocks, arrays, parts, show)
        for part in parts:
            with answered(OSError, WRITE):
                part.keep()


def run(text, connection, show=False):
    """The lines of a job, on the client that the context `connection` gives; `show` is False, True, or 'notebook'."""
    job = read(text)
    blocks = Blocks(job)
    files = read_heads(job)
    with connection as client:
        save(client, blocks, Arrays(blocks, files), show)
    saved = [f'saved {file} {array_files.shape_text(job.nodes[node].shape)}\n' for file, node in job.saves.items()]
    return ''.join(saved) + 'finished by: dask.distributed\n'


def show(lines):
    with answered(OSError, WRITE):
        sys.stdout.write(lines)
        sys.stdout.flush()


def main(words):
    sys.setrecursionlimit(10000)
    try:
        options = parse(words)
        connection = connected(options.scheduler, options.workers, options.threads, options.timeout)
        show(run(read_text(options.job), connection, options.progress and sys.stderr.isatty()))
        return 0
    except Refused as why:
        print(f'dask: {why.line}', file=sys.stderr)
        return why.status
    except MemoryError:
        print('dask: out of memory', file=sys.stderr)
        return 8

