#!/usr/bin/env bash
# Each row of docs/FROM_NUMPY.md: expressions by the program against NumPy, and refusals. DASK names another program than the one
# of these sources.
cd "$(dirname "$0")/.." || exit 1
about='from numpy'
. tools/checking.bash
. tools/program.bash

if ! /usr/bin/python3 -c 'import numpy' 2> /dev/null; then
  echo 'from numpy: skipped, since NumPy is not here (Debian: apt-get install python3-numpy)'
  summary
  exit
fi
program=${DASK-}
if [ -z "$program" ] && ! find_program; then
  echo 'from numpy: there is no program of these sources'
  exit 1
fi
lines=$(/usr/bin/python3 tools/from_numpy.py "$program")
check 'status of the comparison' "$?" 0
read -r _ equal _ different < <(tail -n 1 <<< "$lines")
if [[ $equal$different =~ ^[0-9]+$ ]]; then
  passed=$((passed + equal))
  failed=$((failed + different))
fi
[ "$failed" = 0 ] || printf '%s\n' "$lines"

summary
