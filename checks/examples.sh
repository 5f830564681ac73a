#!/usr/bin/env bash
# Every example by both commands against what NumPy made of it, and files that NumPy makes of every number of axes.
cd "$(dirname "$0")/.." || exit 1
about='examples'
. tools/checking.bash

# words that are none end with status 1
./dask run >/dev/null 2>&1
check 'status without the words of a command' "$?" 1

# the shape that each job saves, as the program prints it
shapes='anomaly (12, 6)
co_occurrence (15, 15)
coarse_grid (18, 36)
column_sum (5,)
grid_axes (6, 8, 10)
joined_years (23, 25)
mask (8, 7)
matrix_product (5, 3)
missing (20,)
moving_mean (58, 15)
packed (12, 16)
peak_month (40,)
per_mille (40, 18)
quota (52, 30)
transpose (4, 6)'
# by what each command says that a job is finished
declare -A ends=([run]=$'cluster\naudit: agrees' [plain]=plain)
while read -r name shape; do
  for command in run plain; do
    rm -f "examples/$name/saved.npy"
    lines=$(./dask $command "examples/$name/job.txt" 2>&1)
    check "status of $command $name" "$?" 0
    check "lines of $command $name" "$lines" "saved examples/$name/saved.npy $shape
finished by: ${ends[$command]}"
    check "file of $command $name" "$(cmp "examples/$name/saved.npy" "examples/$name/expected.npy" && echo same)" same
    rm -f "examples/$name/saved.npy"
  done
done <<< "$shapes"
for folder in examples/*/; do
  name=$(basename "$folder")
  case $name in
    first | large | zero_effort) ;;
    *) check "$name is in the list" "$(grep -c "^$name " <<< "$shapes")" 1 ;;
  esac
done

# one divides by zero on purpose; its second job does not
example=examples/zero_effort
for command in run plain; do
  rm -f $example/saved.npy
  line=$(./dask $command $example/job.txt 2>&1)
  check "status of $command where the hours are 0" "$?" 4
  check "line of $command where the hours are 0" "$line" 'dask: zero division: node 2 block (2, 0)'
  check "what $command leaves then" "$(ls $example)" "$(printf 'catches.npy\nexpected.npy\nhours.npy\njob.txt\nmake.py\nmended.txt')"
  lines=$(./dask $command $example/mended.txt 2>&1)
  check "status of $command of the mended job" "$?" 0
  check "lines of $command of the mended job" "$lines" "saved $example/saved.npy (9, 8)
finished by: ${ends[$command]}"
  check "file of $command of the mended job" "$(cmp $example/saved.npy $example/expected.npy && echo same)" same
  rm -f $example/saved.npy
done

# NumPy, from the distribution's packages where it isn't there yet
if ! /usr/bin/python3 -c 'import numpy' 2>/dev/null; then
  { apt-get update -q && apt-get install -y -q python3-numpy; } >/dev/null 2>&1
fi
if /usr/bin/python3 -c 'import numpy' 2>/dev/null; then
  # the script of each example makes its files
  folder=$(mktemp -d)
  for name in examples/*/make.py; do
    mkdir "$folder/$(basename "$(dirname "$name")")" && cp "$name" "$folder/$(basename "$(dirname "$name")")"
  done
  /usr/bin/python3 tools/examples.py "$folder"
  check 'status of the scripts of the examples' "$?" 0
  for name in "$folder"/*/*.npy; do
    case ${name#"$folder/"} in
      large/counts.npy) ;;
      *) check "${name#"$folder/"} is what its script makes" "$(cmp "$name" "examples/${name#"$folder/"}" && echo same)" same ;;
    esac
  done

  # the large one, whose input isn't kept here: in memory, and with so little that its blocks go to disk, in one thread and simulated
  mkdir "$folder/examples" && mv "$folder/large" "$folder/examples" && cp examples/large/job.txt "$folder/examples/large"
  root=$PWD
  while read -r ended command options; do
    rm -f "$folder/examples/large/saved.npy"
    # shellcheck disable=SC2086
    lines=$(cd "$folder" && "$root/dask" $command examples/large/job.txt $options 2>&1)
    check "status of $command large $options" "$?" 0
    check "lines of $command large $options" "$(sed -n '1p;/^finished by: /p' <<< "$lines")" "saved examples/large/saved.npy (180,)
finished by: $ended"
    check "file of $command large $options" "$(cmp "$folder/examples/large/saved.npy" "$folder/examples/large/expected.npy" && echo same)" same
    check "what $command large $options leaves" "$(ls -A "$folder" "$folder/examples/large" | grep -c '^\.dask')" 0
  done <<< 'cluster run
cluster run --memory 16777216
plain plain
simulation sim 7'
  rm -rf "$folder"

  folder=$(mktemp -d)
  /usr/bin/python3 - "$folder" <<'PYTHON'
import os
import sys

import numpy as np

folder = sys.argv[1]
for axes in range(9):
    shape = (3, 2, 1, 2, 3, 1, 2, 2)[:axes]
    array = (np.arange(np.prod(shape, dtype=np.int64), dtype="<i8") * 37 - 50).reshape(shape)
    for order in "CF":
        name = f"{axes}{order}"
        np.save(os.path.join(folder, name + ".npy"), np.array(array, order=order))
        np.save(os.path.join(folder, name + "_wanted.npy"), array)
        dims = "(" + ", ".join(map(str, shape)) + ")"
        with open(os.path.join(folder, name + ".txt"), "w") as job:
            job.write(f'input a "{name}.npy" shape {dims} chunks {dims}\nsave a "{name}_saved.npy"\n')
PYTHON
  root=$PWD
  for axes in 0 1 2 3 4 5 6 7 8; do
    for order in C F; do
      name=$axes$order
      (cd "$folder" && "$root/dask" plain "$name.txt" >/dev/null 2>&1)
      check "status of an array of $axes axes in order $order" "$?" 0
      check "an array of $axes axes in order $order" "$(cmp "$folder/${name}_saved.npy" "$folder/${name}_wanted.npy" && echo same)" same
    done
  done
  rm -rf "$folder"
else
  echo 'examples: NumPy is not here and its package could not be installed, so neither the scripts of the examples nor arrays of each number of axes are checked'
fi

summary
