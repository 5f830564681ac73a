#!/usr/bin/env python3
"""Runs jobs of jobs.py by this program, NumPy, dask.array on threads, and Dask.distributed, and prints one table in Markdown.

    /usr/bin/python3 bench/compare.py [NAME ..]

Call it by bench/compare.sh. Each of the four is a command of its own that reads the same file and saves the result; processor time
is that of all its processes, from their start to their end. The results are compared byte for byte.
"""
import os
import subprocess
import sys
import tempfile
import threading
import time

import jobs

TOP = os.path.dirname(os.path.dirname(os.path.abspath(__file__)))
PROCESSORS = len(os.sched_getaffinity(0))

# of jobs.py: the shape that is taken here, the name that is shown, and what dask.array is given where that isn't NumPy's
SIZES = {
    'chain 1 GiB': ((8192, 8192), 'elementwise chain', None),
    'column sum 1 GiB': ((65536, 1024), 'column sum', None),
    'a + a.T 512 MiB': ((8192, 8192), '`a + a.T`', None),
    'anomaly 1 GiB': ((1024, 65536), 'anomaly', None),
    'rechunk 512 MiB': ((8192, 8192), 'rechunking', 'a.rechunk((128, 8192))'),
    'product 1024': ((1024, 1024), 'matrix product', None),
    # of almost no data, which shows what each takes to start and to end
    'chain of 4 by 8': ((4, 8), 'the chain of 4 by 8', None),
}

DASK = '''
import os, sys
sys.path.insert(0, {python!r})
import numpy as np, dask, dask.array as da
import yitrovana_work as block_work
from yitrovana.cluster import array_files

def main():
    shape, chunks = {shape}, {chunks}
    name = os.path.abspath('a.npy')
    with open(name, 'rb') as file:
        order, data = array_files.accepted(name, file, os.path.getsize(name), shape)
    chunks = da.core.normalize_chunks(chunks, shape, dtype=np.int64)
    a = da.map_blocks(block_work.read_block, chunks=chunks, dtype=np.int64, meta=np.empty((0, 0), np.int64),
                      path=name, shape=shape, order=order, data=data)
    b = {expression}
    out = os.path.abspath({out!r})
    head = array_files.head(b.shape)
    with open(out, 'wb') as file:
        file.write(head)
        file.truncate(len(head) + b.nbytes)
    stored = da.store(b, block_work.SavedFile(out, b.shape, len(head)), lock=False, compute=False)
    {compute}

if __name__ == '__main__':
    main()
'''
THREADS = "stored.compute(scheduler='threads', num_workers=%d)" % PROCESSORS
DISTRIBUTED = '''
    from dask.distributed import Client, LocalCluster
    with LocalCluster(%d, 1, host='127.0.0.1', dashboard_address='127.0.0.1:0', silence_logs=50) as cluster, Client(cluster) as client:
        client.compute(stored).result()
''' % PROCESSORS


def resident(session):
    """The memory of all processes of a session, now."""
    pages = 0
    for entry in os.listdir('/proc'):
        try:
            if entry.isdigit() and os.getsid(int(entry)) == session:
                with open(f'/proc/{entry}/statm', encoding='ascii') as statm:
                    pages += int(statm.read().split()[1])
        except OSError:
            pass
    return pages * os.sysconf('SC_PAGE_SIZE')


def measured(words, folder):
    """Processor seconds, wall seconds and peak bytes of a command with all its processes."""
    began = time.monotonic()
    child = subprocess.Popen(words, cwd=folder, stdout=subprocess.DEVNULL, start_new_session=True)
    sums, ended = [0], threading.Event()

    def watch():
        while not ended.wait(0.05):
            sums.append(resident(child.pid))
    watcher = threading.Thread(target=watch)
    watcher.start()
    _, status, used = os.wait4(child.pid, 0)
    wall = time.monotonic() - began
    ended.set()
    watcher.join()
    if status:
        sys.exit(f'{words[0]} ended with {status}')
    return used.ru_utime + used.ru_stime, wall, max(*sums, used.ru_maxrss * 1024)


def least(words, folder, out):
    """The least times and the largest peak of some runs, each of which writes a new file."""
    runs = []
    for _ in range(jobs.RUNS):
        if os.path.exists(os.path.join(folder, out)):
            os.remove(os.path.join(folder, out))
        runs.append(measured(words, folder))
    return min(run[0] for run in runs), min(run[1] for run in runs), max(run[2] for run in runs)


def write(folder, name, text):
    with open(os.path.join(folder, name), 'w', encoding='ascii') as file:
        file.write(text)


def commands(folder, shape, chunks, ours, numpy, dask):
    """Who runs the job, by which words, and into which file."""
    write(folder, 'job.txt', f'input a "a.npy" shape {shape} chunks {chunks}\nlet b = {ours}\nsave b "program.npy"\n')
    for name, compute in (('threads', THREADS), ('distributed', DISTRIBUTED)):
        write(folder, f'by_{name}.py', DASK.format(python=os.path.join(TOP, 'python'), shape=shape, chunks=chunks, expression=dask,
                                                out=name + '.npy', compute=compute))
    return {
        'this program': ([jobs.PROGRAM, 'plain', 'job.txt'], 'program.npy'),
        'NumPy': ([sys.executable, '-c', jobs.NUMPY.format(numpy), 'a.npy', 'numpy.npy'], 'numpy.npy'),
        'Dask, threads': ([sys.executable, 'by_threads.py'], 'threads.npy'),
        'Dask.distributed': ([sys.executable, 'by_distributed.py'], 'distributed.npy'),
    }


def compare(name, folder):
    shape, shown, dask = SIZES[name]
    _, chunks, ours, numpy = jobs.JOBS[name if name in jobs.JOBS else 'chain 1 GiB']
    subprocess.run([sys.executable, '-c', jobs.MAKE, 'a.npy', ','.join(map(str, shape)), '<i8'], cwd=folder, check=True)
    size = 8 * shape[0] * shape[1]
    if size >= 2**20:
        shown += f', {size // 2**20} MiB'
    for who, (words, out) in commands(folder, shape, chunks, ours, numpy, dask or numpy).items():
        processor, wall, peak = least(words, folder, out)
        if not jobs.same(os.path.join(folder, 'program.npy'), os.path.join(folder, out)):
            sys.exit(f'{shown}: {who} has other bytes')
        print(f'| {shown} | {who} | {processor:.2f} s | {wall:.2f} s | {peak / 2**20:.0f} MiB |', flush=True)
        if out != 'program.npy':
            os.remove(os.path.join(folder, out))
        shown = ''


def main():
    if set(sys.argv[1:]) - set(SIZES):
        sys.exit('the jobs are ' + ', '.join(SIZES))
    print('| Job | Run by | Processor time | Wall time | Peak memory |\n|---|---|---|---|---|')
    for name in sys.argv[1:] or SIZES:
        with tempfile.TemporaryDirectory(dir=os.environ.get('TMPDIR', '/tmp')) as folder:
            compare(name, folder)


if __name__ == '__main__':
    main()
