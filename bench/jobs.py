#!/usr/bin/env python3
"""Times `./dask plain`, or the program that DASK names, against NumPy on large jobs: processor time and peak memory of whole processes, the
least of RUNS runs, or of three.

    /usr/bin/python3 bench/jobs.py [NAME ..]

Run it with a Python that has NumPy, on a quiet machine with some 12 GiB of disk and 8 GiB of memory free. Each job's data is
made in a temporary folder, which goes at the end. NumPy loads the file, evaluates the expression and saves the result, in a
process of its own; the two results are compared byte for byte.
"""
import math
import os
import subprocess
import sys
import tempfile

TOP = os.path.dirname(os.path.dirname(os.path.abspath(__file__)))
RUNS = int(os.environ.get('RUNS', '3'))
PROGRAM = os.path.abspath(os.environ.get('DASK') or os.path.join(TOP, 'dask'))

# name: the shape of the input, its chunks, the expression of the job, that of NumPy, and where it isn't int64 the type of the file
COLUMN_SUM = (131072, 1024), '(1024, 1024)', 'sum(a, axis=(0))', 'a.sum(axis=0)'
JOBS = {
    'chain 1 GiB': ((16384, 8192), '(512, 2048)', '(a * 3 + 7) * (a - 5) - 11', '(a * 3 + 7) * (a - 5) - 11'),
    'chain 1 GiB, blocks of 1 MiB': ((16384, 8192), '(64, 2048)', '(a * 3 + 7) * (a - 5) - 11', '(a * 3 + 7) * (a - 5) - 11'),
    'column sum 1 GiB': COLUMN_SUM,
    **{f'column sum {size} MiB of {dtype}': (*COLUMN_SUM, dtype) for size, dtype in ((1024, '>i8'), (512, '<i4'), (512, '>i4'), (256, '<i2'),
                                                                                     (256, '>i2'), (128, '|i1'))},
    'column sum 4 GiB': ((524288, 1024), '(1024, 1024)', 'sum(a, axis=(0))', None),
    'a + a.T 512 MiB': ((8192, 8192), '(1024, 1024)', 'a + a.T', 'a + a.T'),
    'anomaly 1 GiB': ((1024, 131072), '(1024, 1024)', 'a - sum(a, axis=(0)) // 1024', 'a - a.sum(axis=0) // 1024'),
    'product 1024': ((1024, 1024), '(1024, 1024)', 'tensordot(a, a, (1), (0))', 'a @ a'),
    'rechunk 512 MiB': ((8192, 8192), '(8192, 128)', 'rechunk(a, (128, 8192))', 'a'),
}

NUMPY = '''
import sys, numpy as np
a = np.load(sys.argv[1])
np.save(sys.argv[2], np.ascontiguousarray({}))
'''

MAKE = '''
import sys, numpy as np
shape = tuple(map(int, sys.argv[2].split(',')))
out = np.lib.format.open_memmap(sys.argv[1], 'w+', sys.argv[3], shape)
rows = max(1, (1 << 22) // shape[1])
for at in range(0, shape[0], rows):
    part = np.arange(at * shape[1], min(at + rows, shape[0]) * shape[1], dtype=np.int64) * 2654435761 % 1000003
    out[at:at + rows] = part.reshape(-1, shape[1])
'''


def measured(words, folder):
    """Processor seconds and peak MiB of a process."""
    child = subprocess.Popen(words, cwd=folder, stdout=subprocess.DEVNULL)
    _, status, used = os.wait4(child.pid, 0)
    if status:
        sys.exit(f'{words[0]} ended with {status}')
    return used.ru_utime + used.ru_stime, used.ru_maxrss / 1024


def least(words, folder, out):
    """The least of the runs, each of which writes a new file."""
    runs = []
    for _ in range(RUNS):
        if os.path.exists(os.path.join(folder, out)):
            os.remove(os.path.join(folder, out))
        runs.append(measured(words, folder))
    return min(run[0] for run in runs), max(run[1] for run in runs)


def same(one, other):
    """By a process of its own: the peak of a process counts from this one's memory on."""
    return subprocess.call(['cmp', '-s', one, other]) == 0


def nanoseconds(seconds, shape):
    return f'{1e9 * seconds / math.prod(shape):.2f} ns an element'


def time_job(name, folder):
    shape, chunks, expression, numpy, dtype = (*JOBS[name], '<i8')[:5]
    subprocess.run([sys.executable, '-c', MAKE, 'a.npy', ','.join(map(str, shape)), dtype], cwd=folder, check=True)
    with open(os.path.join(folder, 'job.txt'), 'w', encoding='ascii') as job:
        job.write(f'input a "a.npy" shape {shape} chunks {chunks}\nlet b = {expression}\nsave b "o.npy"\n')
    ours, peak = least([PROGRAM, 'plain', 'job.txt'], folder, 'o.npy')
    if numpy is None:
        print(f'{name}: {ours:.2f} s, {nanoseconds(ours, shape)}, {peak:.0f} MiB', flush=True)
        return
    theirs, other = least([sys.executable, '-c', NUMPY.format(numpy), 'a.npy', 'n.npy'], folder, 'n.npy')
    right = same(os.path.join(folder, 'o.npy'), os.path.join(folder, 'n.npy'))
    print(f'{name}: {ours:.2f} s, {nanoseconds(ours, shape)}, {peak:.0f} MiB; NumPy {theirs:.2f} s, {other:.0f} MiB; ratio {ours / theirs:.2f}; '
          + ('the same bytes' if right else 'OTHER BYTES'), flush=True)


def main():
    for name in sys.argv[1:] or JOBS:
        with tempfile.TemporaryDirectory(dir=os.environ.get('TMPDIR', '/tmp')) as folder:
            time_job(name, folder)


if __name__ == '__main__':
    main()
