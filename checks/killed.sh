#!/usr/bin/env bash
# A hundred runs that are killed at random times, and one that ends well, in one folder: nothing is left there but what was saved, and
# that is right. Their workers keep few blocks in memory, and parts of their results are there for most of the time. Then the same with
# fewer runs, whose blocks go to another folder.
# DASK names another program than the one of these sources.
cd "$(dirname "$0")/.." || exit 1
about='killed'
. tools/checking.bash
. tools/program.bash

program=${DASK-}
if [ -z "$program" ] && ! find_program; then
  echo 'killed: there is no program of these sources'
  exit 1
fi
program=$(realpath "$program")
top=$PWD
folder=$(mktemp -d)
trap 'rm -rf "$folder"' EXIT
cd "$folder" || exit 1
mkdir results disk
cat > job.txt << 'JOB'
input v "v.npy" shape (512) chunks (512)
let a = ramp((512, 512), 0, 1, (64, 64)) + v
let b = a + a.T
save b "b.npy"
save a "results/a.npy"
JOB
python3 - "$top/tools" << 'PYTHON' || exit 1
import sys

sys.path.insert(0, sys.argv[1])
from random_jobs import array_bytes

with open('v.npy', 'wb') as out:
    out.write(array_bytes([7 * i for i in range(512)], (512,), False))
PYTHON
options='--workers 4 --threads 2 --memory 50000'
# how long a run takes, in microseconds
start=${EPOCHREALTIME/./}
# the options are words
# shellcheck disable=SC2086
"$program" run job.txt $options > /dev/null
check 'status of a run' "$?" 0
took=$((${EPOCHREALTIME/./} - start))
"$program" plain job.txt > /dev/null
check 'status of the evaluation in the calling thread' "$?" 0
mkdir "$folder.wanted" && mv b.npy results/a.npy "$folder.wanted"
trap 'rm -rf "$folder" "$folder.wanted"' EXIT

# Kills so many runs, each after a time that is drawn, and prints how many came to their end before.
kill_runs() { # COUNT
  # shellcheck disable=SC2086
  python3 - "$1" "$took" "$program" run job.txt $options << 'PYTHON'
import random
import subprocess
import sys
import time

count, took, words = int(sys.argv[1]), min(int(sys.argv[2]) / 1e6, 0.5), sys.argv[3:]
draw, ended = random.Random(1), 0
for _ in range(count):
    child = subprocess.Popen(words, stdout=subprocess.DEVNULL, stderr=subprocess.DEVNULL)
    time.sleep(draw.uniform(0, took))
    ended += child.poll() is not None
    child.kill()
    child.wait()
print(ended)
PYTHON
}

while read -r count place; do
  # a variable without a value is none
  export DASK_SPILL=$place
  ended=$(kill_runs "$count")
  check "some of $count runs are killed, with DASK_SPILL=$place" "$((ended < count - count / 10))" 1
  # shellcheck disable=SC2086
  "$program" run job.txt $options > /dev/null
  check "status of the run after them, with DASK_SPILL=$place" "$?" 0
  check "what is left then, with DASK_SPILL=$place" "$(ls -A . results disk)" "$(printf '%s\n' .: b.npy disk job.txt results v.npy '' disk: '' results: a.npy)"
  check "b.npy, with DASK_SPILL=$place" "$(cmp b.npy "$folder.wanted/b.npy" && echo same)" same
  check "a.npy, with DASK_SPILL=$place" "$(cmp results/a.npy "$folder.wanted/a.npy" && echo same)" same
done << 'PLACES'
100
30 disk
PLACES

summary
