#!/usr/bin/env bash
# A ladder of address space, with 300 runs of a job whose workers keep few blocks in memory, started as the launcher does: each ends,
# well and with the right bytes, or for want of memory, and from 8,000 KB on no rung has clearly fewer that end well than the one below.
# DASK names another program than the one of these sources.
cd "$(dirname "$0")/.." || exit 1
about='ladder'
. tools/checking.bash
. tools/program.bash

program=${DASK-}
if [ -z "$program" ] && ! find_program; then
  echo 'ladder: there is no program of these sources'
  exit 1
fi
dask=$(realpath "$program")
top=$PWD
folder=$(mktemp -d)
trap 'rm -rf "$folder"' EXIT
cd "$folder" || exit 1
cat > job.txt << 'JOB'
let a = ramp((1024, 1024), 0, 1, (128, 128))
let b = a + a.T
save b "b.npy"
JOB
# element (i, j) of a is 1024 i + j
python3 - "$top/tools" << 'PYTHON' || exit 1
import sys

sys.path.insert(0, sys.argv[1])
from random_jobs import array_bytes

with open('wanted.npy', 'wb') as out:
    out.write(array_bytes([1025 * (i + j) for i in range(1024) for j in range(1024)], (1024, 1024), False))
PYTHON

# Starts the program as the launcher does; the limit is the program's alone, since a shell under it may end with a status of its own.
start_within() { # KILOBYTES WORDS ..
  (
    root='' program=$(command -v timeout)
    program=${program#/}
    kilobytes=$1
    shift
    set -- 60 prlimit --as="$((kilobytes * 1024))" "$dask" "$@"
    . "$top/tools/start.sh"
  )
}

# Runs the job under a limit, and prints how it ended.
run_within() { # KILOBYTES
  rm -f b.npy
  start_within "$1" run job.txt --workers 4 --threads 4 --memory 100000 > lines 2> errors
  local status=$?
  case $status in
    0) if cmp -s b.npy wanted.npy; then echo well; else echo 'well, with other bytes'; fi ;;
    8) if [ ! -e b.npy ] || cmp -s b.npy wanted.npy; then echo starved; else echo 'starved, with other bytes'; fi ;;
    124) echo endless ;;
    *) echo "status $status" ;;
  esac
}

# Runs the job thirty times under a limit, and sets `well` to how many end well.
walk() { # KILOBYTES
  local ends
  ends=$(for _ in $(seq 30); do run_within "$1"; done | sort | uniq -c)
  ladder+="$1 KB:$(tr -s ' \n' ' ' <<< "$ends")"$'\n'
  check "how runs within $1 KB end that are neither well nor starved" "$(grep -vE '^ *[0-9]+ (well|starved)$' <<< "$ends")" ''
  well=$(sed -nE 's/^ *([0-9]+) well$/\1/p' <<< "$ends")
  well=${well:-0}
}

ladder='' below=0 lower=''
for kilobytes in 5500 6000 6250 6500 7000 8000 11000 14500 18000 24000; do
  walk "$kilobytes"
  own=$well
  if [ "$kilobytes" -gt 8000 ] && [ "$own" -lt "$below" ]; then
    # the counts are drawn: so both rungs are walked once more, and one run in ten may be missing
    walk "$lower" && both=$((below + well))
    walk "$kilobytes"
    check "nine tenths as many of 60 runs end well within $kilobytes KB as within $lower KB" "$((10 * (own + well) >= 9 * both))" 1
  else
    passed=$((passed + 1))
  fi
  below=$own lower=$kilobytes
done
check 'some runs end well on the last rung' "$((below > 0))" 1
check 'what is left beside the saved file' "$(rm -f b.npy; ls -A | sort | paste -sd ' ')" 'errors job.txt lines wanted.npy'
[ "$failed" = 0 ] || echo "$ladder"

summary
