"""Runs jobs by the program."""
import os
import subprocess
import tempfile
import time

import numpy as np

from . import cluster, commands, leftovers, progress, reports
from .failures import failure
from .text import Job

LAST = {}  # the report of the last run


def save(arrays, workers=None, threads=None, memory=None, command='run', number=0, saturation=None, script=None, spill_folder=None,
         scheduler=None, timeout=None, progress=False, allowed_failures=None):
    """Computes arrays into files, `{"b.npy": b}`, by one job.

    `command` is 'run', 'plain' or 'sim', whose events `number` draws. `memory` is bytes or a text as '1GiB', and workers put blocks
    beyond it into `spill_folder`. `allowed_failures` is how often a task's worker may be lost. Or it is 'dask', for a cluster of
    Dask.distributed: that of the address or the client `scheduler`, which has to answer within `timeout` seconds, of the session's own
    client, or of threads that are started here. `progress` is True, or is called twice a second with the counts of
    `yitrovana.progress.Counts`.
    """
    options = {'workers': workers, 'threads': threads, 'memory': memory, 'saturation': saturation, 'allowed_failures': allowed_failures,
               'script': script, 'scheduler': scheduler, 'timeout': timeout}
    job = Job(arrays)
    commands.checked(command, options)
    began = time.monotonic()
    if command == 'dask':
        lines = cluster.run(job, scheduler, workers, threads, timeout, progress)
    else:
        job.check_graph()
        lines = run(job, command, options, number, spill_folder, progress)
    LAST.clear()
    LAST.update(reports.read(lines), command=command, seconds=time.monotonic() - began)
    reports.told(LAST)


def run(job, command, options, number, spill_folder, wanted):
    """What the program prints of a job."""
    with tempfile.TemporaryDirectory() as folder:
        path = os.path.join(folder, 'job.txt')
        with open(path, 'w', encoding='ascii') as file:
            file.write(job.text)
        words = commands.program() + commands.words(command, path, options, number)
        return answered(words, job, spill_folder, wanted)


def report():
    """The report of the last run, as a dict: what was saved, tasks, what each worker started, steals, losses, and seconds."""
    return dict(LAST)


def compute(array, **options):
    """NumPy's array of the elements: a map of a file that has no name any more."""
    with tempfile.TemporaryDirectory() as folder:
        path = os.path.join(folder, 'result.npy')
        save({path: array}, **options)
        if array.size == 0 or not array.shape:
            return np.load(path)[()]
        return np.asarray(np.load(path, mmap_mode='c'))


def answered(words, job, spill_folder, wanted):
    """What the program prints; the exception of its status where that isn't 0."""
    environment = {**os.environ, **({} if spill_folder is None else {'DASK_SPILL': os.fspath(spill_folder)})}
    with tempfile.TemporaryFile() as lines, tempfile.TemporaryFile() as fault:
        process = subprocess.Popen(words, stdin=subprocess.DEVNULL, stdout=lines, stderr=fault, env=environment)
        try:
            status = watched(process, job, wanted)
        except BaseException:
            process.terminate()
            process.wait()
            leftovers.remove(job.saves, environment.get('DASK_SPILL'))
            raise
        told, line = (read_whole(file) for file in (lines, fault))
    if status:
        raise failure(status, line.strip(), job)
    return told


def read_whole(file):
    file.seek(0)
    return file.read().decode()


def bytes_of(array):
    """The length of an input's file."""
    path = array.parameters[1]
    return os.path.getsize(path) if os.path.exists(path) else 0


def watched(process, job, wanted):
    """Waits for the program's end, and shows on the way how far it is."""
    if not wanted:
        return process.wait()
    to_read, to_write = sum(map(bytes_of, job.inputs())), sum(array.nbytes for array in job.saves.values())
    show, began = wanted if callable(wanted) else progress.shown(to_read + to_write), time.monotonic()
    try:
        while True:
            try:
                return process.wait(progress.EVERY)
            except subprocess.TimeoutExpired:
                counts = progress.counts(process.pid, began, to_read, to_write)
                if counts:
                    show(counts)
    finally:
        if not callable(wanted):
            show.close()
