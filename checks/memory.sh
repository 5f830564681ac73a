#!/usr/bin/env bash
# Runs by a cluster of threads under many limits of address space, so that memory ends at many points
# of a run; at which ones isn't told. Each run ends well with the bytes of the evaluation in
# the calling thread, or with the status of want of memory and no file but a whole one. DASK names another program than the one of these sources.
cd "$(dirname "$0")/.." || exit 1
about='memory'
. tools/checking.bash
. tools/program.bash

program=${DASK-}
if [ -z "$program" ] && ! find_program; then
  echo 'memory: there is no program of these sources'
  exit 1
fi
program=$(realpath "$program")
root=$PWD
folder=$(mktemp -d)
trap 'rm -rf "$folder"' EXIT
cd "$folder" || exit 1
cat > job.txt <<'E'
let a = ramp((512, 512), 0, 1, (64, 64))
let s = sum(a + a.T, axis=(0))
save s "s.npy"
E
"$program" plain job.txt > lines
check 'status of the evaluation in the calling thread' "$?" 0
mv s.npy wanted.npy

# Runs a program under a limit. Only the program gets it: a shell that needs memory under its own limit ends with a status of its own,
# which may be one of the program's.
within() {
  local kilobytes=$1
  shift
  prlimit --as="$((kilobytes * 1024))" "$@"
}

# Runs the job under a limit, and prints how it ended.
run_within() {
  rm -f s.npy
  within "$1" timeout 20 "$program" run job.txt --script lose:1@30,join@40 > lines 2> errors
  local status=$?
  case $status in
    0) if cmp -s s.npy wanted.npy; then echo well; else echo "status 0 with other bytes at $1"; fi ;;
    8) if [ -e s.npy ] && ! cmp -s s.npy wanted.npy; then echo "status 8 with other bytes at $1"; else echo starved; fi ;;
    127) echo unstarted ;;
    *) echo "status $status at $1" ;;
  esac
}

ends=$(for kilobytes in $(seq 3500 25 6000) $(seq 6000 2000 140000); do run_within "$kilobytes"; done | sort | uniq -c)
check 'ends under limits of memory' "$(awk '{print $2}' <<< "$ends" | grep -v '^unstarted$' | paste -sd ' ')" 'starved well'
[ "$failed" = 0 ] || echo "$ends"

# Want of memory at the scheduler, by the driver runner_table: for each worker number that joins it makes rows over all keys. So a run
# that ends well under a limit as long as its joins never come due finds no memory there once they do. Where no worker left for that,
# it was the scheduler who found none, or the client, who gets one block.
cd "$root" || exit 1
if [ -z "${RUNNER-}" ] && ! find_driver runner_table; then
  echo 'memory: crates/runner_table has no program of these sources (`rt run` builds it there), so want of memory at the scheduler is not tried'
  summary
  exit
fi
runner=${RUNNER-$driver}
# a line in which thirty workers join and are lost, once so many tasks are finished
joins() {
  local worker
  printf 'sum 8192 1 1 1'
  for worker in $(seq 2 31); do
    printf ' join@%s lose:%s@%s' "$1" "$worker" "$1"
  done
}
# how a line ends under a limit, and which workers left but by the script
ends_within() {
  MALLOC_ARENA_MAX=1 within "$1" timeout 60 "$runner" <<< "$(joins "$2")" 2>&1 | sed 1d | grep -v ' left: script$' | paste -sd ' '
}
there=0 starved=0
for kilobytes in $(seq 100000 2000 180000); do
  [ "$(ends_within "$kilobytes" 1000000)" = 'key 19114 is 699149' ] || continue
  end=$(ends_within "$kilobytes" 1)
  [ "$end" != 'key 19114 is 699149' ] || break
  there=$((there + 1))
  [ "$end" != 'no memory' ] || starved=$((starved + 1))
done
check 'limits under which joins find no memory' "$((there > 0))" 1
check 'limits under which it is the scheduler that finds none' "$((starved > 0))" 1

summary
