#!/usr/bin/env bash
# Random jobs by a cluster of threads, with random workers, threads, memory and scripts, one job of 280 keys whose workers are
# lost, suspected and join, and one with little memory: the bytes are those of the evaluation in the calling thread, and each
# audit agrees. DASK names another program than the one of these sources.
cd "$(dirname "$0")/.." || exit 1
about='runs'
. tools/checking.bash
. tools/program.bash

program=${DASK-}
if [ -z "$program" ] && ! find_program; then
  echo 'runs: there is no program of these sources'
  exit 1
fi
lines=$(python3 tools/random_runs.py "$program" 1000 1)
check 'status of 1,000 random runs' "$?" 0
check 'last line of 1,000 random runs' "$(tail -1 <<< "$lines" | cut -d ' ' -f 1-4)" '1000 equal, 0 differ'
[ "$failed" = 0 ] || echo "$lines"

folder=$(mktemp -d)
trap 'rm -rf "$folder"' EXIT
program=$(realpath "$program")
cd "$folder" || exit 1
cat > job.txt << 'JOB'
let a = ramp((1024, 1024), 0, 1, (128, 128))
let s = sum(a + a.T, axis=(0))
save s "s.npy"
JOB
"$program" plain job.txt > lines
check 'status of the evaluation in the calling thread' "$?" 0
mv s.npy wanted.npy
for options in '' '--script lose:1@40' '--script suspect:2@40,join@80 --allowed-failures 1' '--script join@0,lose:1@1,suspect:2@60,join@60,lose:3@120' \
  '--workers 2 --threads 1 --script lose:2@100,join@200' '--memory 100000 --script lose:4@150,join@150' \
  '--workers 1 --script join@1,lose:1@2,join@3,lose:2@4,join@5,lose:3@6'; do
  for _ in 1 2 3 4 5; do
    rm -f s.npy
    # the options are words
    "$program" run job.txt --report $options > lines
    check "status of run $options" "$?" 0
    check "keys of run $options" "$(head -2 lines | tail -1)" 'keys 280'
    check "bytes of run $options" "$(cmp s.npy wanted.npy && echo equal)" equal
    check "audit of run $options" "$(tail -1 lines)" 'audit: agrees'
  done
done

# a worker is lost after three finishes and another one joins after four, of 18 keys
sed -i 's/(128, 128)/(512, 512)/' job.txt
"$program" run job.txt --workers 2 --script lose:1@3,join@4 --report > lines
check 'status of a run with a loss and a join' "$?" 0
check 'bytes of a run with a loss and a join' "$(cmp s.npy wanted.npy && echo equal)" equal
check 'keys, losses and audit of a run with a loss and a join' "$(grep -E '^(keys|losses|audit)' lines | paste -sd ,)" 'keys 18,losses 1,audit: agrees'
check 'whether worker 3 has a line' "$(grep -c '^worker 3 started ' lines)" 1

# blocks of 2 MiB, of which 64 MiB may stay in memory: sums whose values are known
sed -i 's/(1024, 1024), 0, 1/(4096, 4096), 0, 1/' job.txt
"$program" run job.txt --memory 67108864 --report > lines
check 'status of a run with little memory' "$?" 0
check 'keys and audit of a run with little memory' "$(grep -E '^(keys|audit)' lines | paste -sd ,)" 'keys 280,audit: agrees'
check 'bytes in its file' "$(stat -c %s s.npy)" 32896
check 'the first two sums and the last one' "$(tail -c 32768 s.npy | od -An -v -t d8 -w8 | sed -n '1p;2p;$p' | tr -d ' ' | paste -sd ' ')" \
  '34359736320 34376517632 103079208960'

summary
