#!/usr/bin/env bash
# Times many tiny tasks through the whole command `run`, with 4 workers of 2 threads: sum(ramp((8192), 0, 1, (1))), which is
# 19,115 keys. It prints the processor time and the wall time of each of five runs, and the processor time a task of the least.
# Where Dask.distributed is here, the same graph is run by it, with as many workers and threads in one process and no loopback
# (processes=False). Then it runs one job of few long tasks by one worker of one thread and by 4 workers, and prints the wall
# times. Run it on a quiet machine. DASK names another program than ./dask.
cd "$(dirname "$0")/.." || exit 1
program=${DASK-$PWD/dask}
room=$(mktemp -d) || exit 1
trap 'rm -rf "$room"' EXIT
cat > "$room/tiny.txt" <<'JOB'
let total = sum(ramp((8192), 0, 1, (1)))
save total "total.npy"
JOB
cat > "$room/long.txt" <<'JOB'
let a = ramp((16384, 1024), 1, 3, (256, 1024))
let b = ((((a * a) // 7 + a) % 1000003) * a) // 11
let s = sum(b, axis=(0, 1))
save s "s.npy"
JOB
cd "$room" || exit 1
"$program" run tiny.txt > /dev/null || exit 1

# the processor time and the wall time of a command, in seconds
timed() {
  (TIMEFORMAT='%U %S %R' && time "$@" > /dev/null) 2>&1 | awk '{ printf "%.3f %.3f\n", $1 + $2, $3 }'
}

echo 'run tiny.txt --workers 4 --threads 2: processor time and wall time of each run'
for _ in 1 2 3 4 5; do
  timed "$program" run tiny.txt --workers 4 --threads 2
done | tee least
sort -n least | awk 'NR == 1 { printf "least: %.1f microseconds of processor time a key\n", $1 * 1e6 / 19115 }'

if /usr/bin/python3 -c 'import dask.array, dask.distributed' 2> /dev/null; then
  echo 'Dask.distributed, processes=False: processor time and wall time of compute() alone, of each run'
  /usr/bin/python3 - <<'PY'
import resource
import time

import dask
import dask.array as da
from dask.distributed import Client

def main():
    with Client(n_workers=4, threads_per_worker=2, processes=False, dashboard_address=None) as client:
        for _ in range(3):
            total = da.arange(8192, chunks=1, dtype='i8').sum(split_every=8)
            total, = dask.optimize(total)
            keys = len(total.__dask_graph__())
            before, start = resource.getrusage(resource.RUSAGE_SELF), time.perf_counter()
            assert int(total.compute(optimize_graph=False)) == 8191 * 8192 // 2
            now, end = resource.getrusage(resource.RUSAGE_SELF), time.perf_counter()
            spent = now.ru_utime + now.ru_stime - before.ru_utime - before.ru_stime
            print(f'{spent:.3f} {end - start:.3f} ({keys} keys, {spent * 1e6 / keys:.0f} microseconds a key)')

main()
PY
else
  echo 'Dask.distributed is not here (Debian: apt-get install python3-dask python3-distributed python3-numpy)'
fi

echo 'run long.txt by one worker of one thread, and by 4 workers of one: processor time and wall time, three runs each'
for _ in 1 2 3; do
  timed "$program" run long.txt --workers 1 --threads 1
done
for _ in 1 2 3; do
  timed "$program" run long.txt --workers 4 --threads 1
done
