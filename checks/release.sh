#!/usr/bin/env bash
# The program that the repository carries: it is the one of these sources, byte for byte what the gate has built of them.
cd "$(dirname "$0")/.." || exit 1
about='release (where the sources changed, tools/release.sh makes it anew)'
. tools/checking.bash
. tools/program.bash

read_note "$released_note"
read_crates
check 'the crates that the program stands on' "$(printf '%s\n' "${crates[@]}")" "${noted_crates%$'\n'}"
check 'the sum of the sources' "$(sources_sum "$noted_kit")" "$noted_sources"
check 'the sum of release/dask' "$(sum "$released")" "$noted_program"
check 'release/dask can be run' "$([ -x "$released" ] && echo yes)" yes

kit=$(kit_line)
if [ "$kit" != "$noted_kit" ]; then
  echo "release: release/dask is built by $noted_kit, and this is ${kit:-no kit}, which may give other bytes: only the sources were compared"
elif is_of_sources "$built" "$built_note"; then
  check 'release/dask is byte for byte what was built of these sources' "$(cmp "$built" "$released" 2>&1 && echo same)" same
else
  check 'a build of these sources to compare with, by .ci/run or ./dask --build' none "$built"
fi

summary
