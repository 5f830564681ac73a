#!/usr/bin/env bash
# Runs the jobs of bench/jobs.py, at sizes of at most 512 MiB, by this program, NumPy, Dask on threads and Dask.distributed (a
# cluster in processes of this machine, over loopback alone), and prints one table: see bench/compare.py. It needs 2 GiB of disk and
# 6 GiB of memory free, and takes minutes. DASK names another program than ./dask, RUNS how often each is run (3).
cd "$(dirname "$0")/.." || exit 1
if ! /usr/bin/python3 -c 'import dask.array, dask.distributed' 2> /dev/null; then
  echo 'Dask.distributed is not here (Debian: apt-get install python3-dask python3-distributed python3-numpy)' >&2
  exit 1
fi
exec /usr/bin/python3 bench/compare.py "$@"
