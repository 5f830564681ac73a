#!/bin/sh
# Times a simulation of about 10,000 turns with 64 workers by the built program: 750 numbers in chunks of one, which are
# 1,500 keys. It runs the command three times and prints the processor time of each run, and how many turns it took. Run it
# on a quiet machine.
set -eu
top=$(cd "$(dirname "$0")/.." && pwd)
chunks=${1:-750}
folder=$(mktemp -d)
trap 'rm -rf "$folder"' EXIT
python3 - "$folder/counts.npy" "$chunks" <<'PY'
import struct
import sys

name, count = sys.argv[1], int(sys.argv[2])
head = b"{'descr': '<i8', 'fortran_order': False, 'shape': (%d,), }" % count
head += b" " * (-(len(head) + 11) % 64) + b"\n"
with open(name, "wb") as file:
    file.write(b"\x93NUMPY\x01\x00" + struct.pack("<H", len(head)) + head)
    file.write(struct.pack("<%dq" % count, *range(count)))
PY
cat > "$folder/job.txt" <<JOB
input counts "counts.npy" shape ($chunks) chunks (1)
let raised = counts + 1
save raised "raised.npy"
JOB
cd "$folder"
"$top/dask" sim job.txt 0 --workers 1 --threads 1 > /dev/null 2>&1 || true # built, if it was not yet
for run in 1 2 3; do
  echo "run $run:"
  (time -p "$top/dask" sim job.txt 7 --workers 64 --threads 1) > lines 2> times
  grep '^turns' lines
  cat times
done
