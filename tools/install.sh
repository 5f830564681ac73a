#!/usr/bin/env bash
# install.sh PREFIX: copies the program that is of these sources, the launcher and the front in Python to PREFIX/lib/yitrovana, where
# they stand as in a clone, and makes the command PREFIX/bin/yitrovana. (The name `dask` is that of Dask's own command.)
cd "$(dirname "$0")/.." || exit 1
. tools/program.bash
if ! find_program; then
  echo 'there is no program of these sources: ./dask --build makes it' >&2
  exit 1
fi
note=$released_note
[ "$program" = "$released" ] || note=$built_note

set -e
mkdir -p "$1/lib" "$1/bin"
prefix=$(cd "$1" && pwd)
target=$prefix/lib/yitrovana
new=$(mktemp -d "$prefix/lib/.yitrovana.XXXXXX")
trap 'rm -rf "$new"' EXIT
chmod 755 "$new"
mkdir -p "$new/release" "$new/tools" "$new/python/yitrovana/cluster"
install -m 755 dask "$new/dask"
install -m 755 "$program" "$new/$released"
install -m 644 "$note" "$new/$released_note"
install -m 644 tools/{start,waited,places}.sh tools/{launch,program}.bash tools/{hints,hints_of_text,show_progress}.py "$new/tools"
install -m 644 python/yitrovana_work.py "$new/python"
install -m 644 python/yitrovana/*.py "$new/python/yitrovana"
install -m 644 python/yitrovana/cluster/*.py "$new/python/yitrovana/cluster"
rm -rf "$target"
mv "$new" "$target"
ln -sfn ../lib/yitrovana/dask "$prefix/bin/yitrovana"
echo "the command: $prefix/bin/yitrovana"
echo "in Python, import yitrovana: PYTHONPATH=$target/python, or pip install ./python"
