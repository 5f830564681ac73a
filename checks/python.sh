#!/usr/bin/env bash
# The package of python/ over the program: random trees against NumPy's bytes, the places of zero divisors, each refusal, its example,
# and the package as pip installs it. DASK names another program than the one of these sources.
cd "$(dirname "$0")/.." || exit 1
about='python'
. tools/checking.bash
. tools/program.bash

if ! /usr/bin/python3 -c 'import numpy' 2> /dev/null; then
  echo 'python: skipped, since NumPy is not here (Debian: apt-get install python3-numpy)'
  summary
  exit
fi
program=${DASK-}
if [ -z "$program" ] && ! find_program; then
  echo 'python: there is no program of these sources'
  exit 1
fi
YITROVANA=$(realpath "$program")
export YITROVANA PYTHONDONTWRITEBYTECODE=1
folder=$(mktemp -d)
trap 'rm -rf "$folder"' EXIT

/usr/bin/python3 python/tests/random_trees.py 60 1 > "$folder/lines" 2>&1
check 'status of the random trees' "$?" 0
read -r _ equal _ different < <(tail -n 1 "$folder/lines")
if [[ $equal$different =~ ^[0-9]+$ ]]; then
  passed=$((passed + equal))
  failed=$((failed + different))
fi
[ "$failed" = 0 ] || cat "$folder/lines"
check 'the example' "$(PYTHONPATH=python /usr/bin/python3 python/examples/climatology.py 2>&1 | sed 's/ as .* has/ as it has/')" \
  'normal (12, 12, 24) and anomaly (3, 12, 12, 24) are as it has them'

# the job of README.md with one's own file
between() { # WORD
  awk -v word="$1" '
    /^```/ { if (inside && block ~ word) kept = block; inside = !inside; block = ""; next }
    inside { block = block $0 "\n" }
    END { printf "%s", kept }' README.md
}
mkdir "$folder/own"
between np.save > "$folder/own/make.py"
between 'input months' > "$folder/own/job.txt"
check 'the job of README.md' "$(cd "$folder/own" && /usr/bin/python3 make.py 2>&1 && "$YITROVANA" run job.txt 2>&1 | head -n 1)" 'saved anomaly.npy (12, 6)'
check 'what NumPy makes of it' "$(cd "$folder/own" && /usr/bin/python3 -c '
import numpy as np
months = np.load("months.npy")
print(np.array_equal(np.load("anomaly.npy"), months - months.sum(axis=0) // 12))' 2>&1)" True

# as one installs it, from a copy, since pip leaves files where it builds
small='import yitrovana as y; print(y.ramp((2, 3), 1, 2).sum(axis=0).compute())'
if /usr/bin/python3 -c 'import setuptools, wheel, pip' 2> /dev/null; then
  mkdir "$folder/clone"
  tar cf - python tools/start.sh release | (cd "$folder/clone" && tar xf -)
  /usr/bin/python3 -m pip install --quiet --no-build-isolation --no-deps --no-index --no-cache-dir --disable-pip-version-check \
    --root-user-action=ignore --target "$folder/site" "$folder/clone/python" > "$folder/lines" 2>&1
  check 'status of pip' "$?" 0
  rm -r "$folder/clone"
  check 'the package that pip installed' "$(cd "$folder" && unset YITROVANA && PYTHONPATH=site /usr/bin/python3 -c "$small" 2>&1)" '[ 8 12 16]'
  check 'its command' "$(unset YITROVANA && PYTHONPATH=$folder/site /usr/bin/python3 -m yitrovana run examples/first/job.txt 2>&1 | head -n 1)" \
    'saved examples/first/raised.npy (3,)'
  rm -f examples/first/raised.npy
else
  echo 'python: pip, setuptools or wheel is not here, so the installed package is not tried'
fi
# with the launcher of this clone
[ -n "${DASK-}" ] || check 'the package of this clone' "$(unset YITROVANA && PYTHONPATH=python /usr/bin/python3 -c "$small" 2>&1)" '[ 8 12 16]'

summary
