#!/usr/bin/env bash
# Makes release/dask and release/SOURCES: the program of the sources as they stand, which is proved and built first where this
# clone has no build of them, and the note that says so. Run it, and commit both, with each change that changes the program.
cd "$(dirname "$0")/.." || exit 1
. tools/program.bash
is_of_sources "$built" "$built_note" || build_program || exit 1
mkdir -p release
# how long the last build from nothing took
minutes=$(cat "$built_note" "$released_note" 2> /dev/null | grep -m 1 '^minutes ')
# a program that runs can't be written over, but another can take its name
cp "$built" release/dask.new && chmod 755 release/dask.new && mv release/dask.new "$released" &&
  { grep -v '^minutes ' "$built_note" && [ -z "$minutes" ] || echo "$minutes"; } > "$released_note" && echo "$released of $(sum "$released")"
