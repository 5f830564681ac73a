#!/usr/bin/env bash
# Runs larger than their workers' memory through the command `run`, with 4 workers of 2 threads: how far counts of 2 GiB are from
# their columns' means, of which the squares are summed, with 128 MiB a worker; a rechunk of 512 MiB with 32 MiB a worker; and a
# sum of 64 MiB whose workers keep one block each (`--memory 1`). It prints the processor time, the wall time and the peak memory
# of each, and whether the bytes are NumPy's. It needs a Python with NumPy, 6 GiB of disk and a quiet machine. DASK names another
# program than ./dask, and ROOM another place for the files than /tmp.
cd "$(dirname "$0")/.." || exit 1
program=${DASK-$PWD/dask}
room=$(mktemp -d -p "${ROOM-/tmp}") || exit 1
trap 'rm -rf "$room"' EXIT
cd "$room" || exit 1
cat > make.py <<'PY'
"""A file of counts, made a piece at a time, and what NumPy makes of it."""
import sys

import numpy as np

name, rows, columns = sys.argv[1], int(sys.argv[2]), int(sys.argv[3])
if name != 'sum':
    a = np.lib.format.open_memmap('a.npy', 'w+', np.int64, (rows, columns))
    for at in range(0, rows, 256):
        a[at:at + 256] = (np.arange(at * columns, (at + 256) * columns, dtype=np.int64) * 2654435761 % 1000003).reshape(-1, columns)
if name == 'anomaly':
    mean = sum(a[at:at + 256].sum(axis=0) for at in range(0, rows, 256)) // rows
    wanted = sum(((a[at:at + 256] - mean) ** 2).sum(axis=0) for at in range(0, rows, 256))
elif name == 'rechunk':
    wanted = np.array(a).sum(axis=1) * 3
else:
    wanted = 3 * np.arange(rows * columns, dtype=np.int64).reshape(rows, columns).sum(axis=0)
np.save('wanted.npy', wanted)
PY
# a process of its own, since the peak of a process counts from the memory of the one that starts it
cat > measure.py <<'PY'
import os
import subprocess
import sys
import time

start = time.perf_counter()
child = subprocess.Popen(sys.argv[1:], stdout=subprocess.DEVNULL)
_, status, used = os.wait4(child.pid, 0)
print(f'{used.ru_utime + used.ru_stime:.2f} s of processor time, {time.perf_counter() - start:.2f} s of wall time, '
      f'{used.ru_maxrss / 1024:.0f} MiB at the peak', end='')
sys.exit(status != 0)
PY

# a job over so many rows and columns, with so much memory a worker
run() {
  /usr/bin/python3 make.py "$1" "$2" "$3" || exit 1
  echo "$5" > job.txt
  rm -f s.npy
  echo -n "$1: "
  python3 measure.py "$program" run job.txt --memory "$4"
  if cmp -s s.npy wanted.npy; then echo ', equal'; else echo ', DIFFERENT'; fi
}

run anomaly 16384 16384 $((128 << 20)) 'input a "a.npy" shape (16384, 16384) chunks (1024, 1024)
let d = a - sum(a, axis=(0)) // 16384
let s = sum(d * d, axis=(0))
save s "s.npy"'
run rechunk 8192 8192 $((32 << 20)) 'input a "a.npy" shape (8192, 8192) chunks (1024, 1024)
let b = rechunk(a, (128, 8192))
let s = sum(b * 3, axis=(1))
save s "s.npy"'
run sum 4096 2048 1 'let a = ramp((4096, 2048), 0, 1, (256, 256))
let s = sum(a + a * 2, axis=(0))
save s "s.npy"'
