#!/usr/bin/env bash
# The front in Python on a cluster of Dask.distributed, beside the program: all examples, 100 random jobs, and texts and files that are
# refused, on a cluster in one process; its arrays from and to dask.array, and which of them are taken over without computing; and its
# command, which starts a cluster of several processes.
# DASK names another program than the one of these sources.
cd "$(dirname "$0")/.." || exit 1
about='dask'
. tools/checking.bash
. tools/program.bash

if ! /usr/bin/python3 -c 'import dask.array, dask.distributed' 2> /dev/null; then
  echo 'dask: skipped, since Dask.distributed is not here (Debian: apt-get install python3-dask python3-distributed)'
  summary
  exit
fi
program=${DASK-}
if [ -z "$program" ] && ! find_program; then
  echo 'dask: there is no program of these sources'
  exit 1
fi
YITROVANA=$(realpath "$program")
export YITROVANA PYTHONDONTWRITEBYTECODE=1 PYTHONPATH=$PWD/python

folder=$(mktemp -d)
trap 'rm -rf "$folder"' EXIT
for cases in "tools/dask_cases.py $YITROVANA 100 1" python/tests/cluster_cases.py "python/tests/expression_cases.py 100 1"; do
  # shellcheck disable=SC2086
  /usr/bin/python3 $cases > "$folder/lines" 2>&1
  check "status of $cases" "$?" 0
  read -r _ equal _ different < <(tail -n 1 "$folder/lines")
  if [[ $equal$different =~ ^[0-9]+$ ]]; then
    passed=$((passed + equal))
    failed=$((failed + different))
  fi
  [ "${different:-1}" = 0 ] || cat "$folder/lines"
done

# the command itself, from another folder, and its refusals, before which no cluster is started
job() { (cd "$folder" && /usr/bin/python3 -m yitrovana.cluster "$@" 2>&1); }
cp examples/first/counts.npy "$folder"
printf 'input a "counts.npy" shape (3) chunks (2)\nlet b = a // 2\nsave b "b.npy"\n' > "$folder/job.txt"
lines=$(job job.txt --workers 1 --threads 1)
check 'status of the command' "$?" 0
check 'lines of the command' "$lines" 'saved b.npy (3,)
finished by: dask.distributed'
check 'data of the command' "$(tail -c 24 "$folder/b.npy" | od -An -v -t d8 | tr -s ' \n' ' ')" ' 0 1 1 '
line=$(job)
check 'status without words' "$?" 1
check 'line without words' "$line" 'dask: words'
line=$(job missing.txt)
check 'status of a missing job' "$?" 5
check 'line of a missing job' "$line" 'dask: read fault'
line=$(job job.txt --scheduler tcp://127.0.0.1:1 --timeout 1)
check 'status without a cluster' "$?" 7
check 'line without a cluster' "$line" 'dask: cluster'
lines=$(job --help)
check 'status of --help' "$?" 0
check 'words of --help' "$(grep -oE '^  --[a-z]+' <<< "$lines" | xargs)" '--scheduler --workers --threads --timeout --progress'

summary
