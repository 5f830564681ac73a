#!/usr/bin/env bash
# Runs by a cluster of threads whose workers keep few blocks in memory, on real files: the bytes are those of the evaluation in
# the calling thread, also where blocks on the disk are spoiled while the run goes on, and nothing is left, even of runs that are killed. DASK names
# another program than the one of these sources.
cd "$(dirname "$0")/.." || exit 1
about='spilling'
. tools/checking.bash
. tools/program.bash

program=${DASK-}
if [ -z "$program" ] && ! find_program; then
  echo 'spilling: there is no program of these sources'
  exit 1
fi
program=$(realpath "$program")
top=$PWD
folder=$(mktemp -d)
trap 'rm -rf "$folder"' EXIT
cd "$folder" || exit 1
cat > job.txt << 'JOB'
let a = ramp((2048, 2048), 0, 1, (256, 256))
let b = rechunk(a, (2048, 32))
let s = sum(b * 3 + b, axis=(0)) - sum(a.T, axis=(1))
save s "s.npy"
JOB
"$program" plain job.txt > lines
check 'status of the evaluation in the calling thread' "$?" 0
mv s.npy wanted.npy

# a run within so much memory, and what it leaves
for memory in 1 100000 4000000; do
  rm -f s.npy
  "$program" run job.txt --memory "$memory" --workers 3 > lines
  check "status within $memory bytes" "$?" 0
  check "bytes within $memory bytes" "$(cmp s.npy wanted.npy && echo equal)" equal
  check "what is left within $memory bytes" "$(ls -A | sort | paste -sd ' ')" 'job.txt lines s.npy wanted.npy'
done

# blocks that are spoiled on the disk
spoiled=$(for seed in 1 2 3 4; do
  rm -f s.npy
  python3 "$top/tools/spoil_blocks.py" . "$seed" "$program" run job.txt --memory 1 --workers 3
  [ "$?" = 0 ] || echo "status $?"
  cmp s.npy wanted.npy || echo 'other bytes'
done)
check 'runs whose blocks are spoiled' "$(grep -cE '^flipped [0-9]+, cut [0-9]+, blanked [0-9]+$' <<< "$spoiled")" 4
check 'what went wrong where blocks are spoiled' "$(grep -vE '^flipped [0-9]+, cut [0-9]+, blanked [0-9]+$' <<< "$spoiled")" ''
for way in flipped cut blanked; do
  check "some blocks are $way" "$(grep -cE "$way [1-9]" <<< "$spoiled" | grep -c '[1-9]')" 1
done
check 'what is left where blocks are spoiled' "$(ls -A | sort | paste -sd ' ')" 'job.txt lines s.npy wanted.npy'

# what has a name that is tried is in nobody's way, and an empty file, as of a run that was killed there, goes
mkdir .dask-spill-1-0
echo kept > .dask-spill-1-1
touch .dask-spill-1-2
rm -f s.npy
"$program" run job.txt --memory 1 --workers 1 > lines
check 'status beside names that are taken' "$?" 0
check 'bytes beside names that are taken' "$(cmp s.npy wanted.npy && echo equal)" equal
check 'what is left beside them' "$(ls -A | sort | paste -sd ' ')" '.dask-spill-1-0 .dask-spill-1-1 job.txt lines s.npy wanted.npy'
check 'what one of them holds' "$(cat .dask-spill-1-1)" kept
rm -r .dask-spill-1-0 .dask-spill-1-1

# the files of the disks lie where DASK_SPILL says, and there are as many as workers
mkdir disk
rm -f s.npy
# a run that ends before it was looked at often enough is tried again
for _ in 1 2 3 4 5 6 7 8 9 10; do
  DASK_SPILL=$folder/disk "$program" run job.txt --memory 1 --workers 3 > lines &
  run=$!
  seen=$(while kill -0 "$run" 2> /dev/null; do
    for descriptor in /proc/"$run"/fd/*; do readlink "$descriptor"; done
  done 2> /dev/null | grep -o '.*/\.dask-spill-[0-9]*-' | sort -u)
  wait "$run"
  status=$?
  [ "$status" = 0 ] && [ "$(wc -l <<< "$seen")" -lt 3 ] || break
done
check 'status where the blocks go elsewhere' "$status" 0
check 'bytes where the blocks go elsewhere' "$(cmp s.npy wanted.npy && echo equal)" equal
check 'where they go' "$seen" "$(printf "$folder/disk/.dask-spill-%s-\n" 1 2 3)"
check 'what is left where they went' "$(ls -A disk)" ''
rmdir disk
rm -f s.npy
DASK_SPILL=$folder/disk "$program" run job.txt --memory 1 > lines
check 'status where no disk can be had' "$?" 0
check 'bytes where no disk can be had' "$(cmp s.npy wanted.npy && echo equal)" equal

# runs that are killed leave their parts alone, which the next one removes
rm -f s.npy
for wait in 0.02 0.05 0.1 0.15 0.2 0.25; do
  timeout --foreground -s KILL "$wait" "$program" run job.txt --memory 1 > lines
  check "disks that are left after $wait s" "$(find . -name '.dask*' | wc -l)" 0
done
rm -f s.npy
"$program" run job.txt --memory 1 > lines
check 'status after runs that were killed' "$?" 0
check 'bytes after runs that were killed' "$(cmp s.npy wanted.npy && echo equal)" equal
check 'what is left after runs that were killed' "$(ls -A | sort | paste -sd ' ')" 'job.txt lines s.npy wanted.npy'

summary
