#!/usr/bin/env bash
# Files of each version and type by `run`, `plain` and `sim`, against what NumPy makes of the same arrays as int64; files of a few
# bytes each that are written by hand; and the lines of those that are refused. DASK names another program than the one of these sources.
cd "$(dirname "$0")/.." || exit 1
about='types'
. tools/checking.bash
. tools/program.bash

program=${DASK-}
if [ -z "$program" ] && ! find_program; then
  echo 'types: there is no program of these sources'
  exit 1
fi
program=$(realpath "$program")
folder=$(mktemp -d)
trap 'rm -rf "$folder"' EXIT
declare -A commands=([run]='run job.txt' [plain]='plain job.txt' [sim]='sim job.txt 7')

# a file by hand: its version, its header without the spaces at the end, and the data; the whole head has 128 bytes
by_hand() { # NAME MAJOR HEADER DATA
  local LC_ALL=C length=$((128 - ($2 == 1 ? 10 : 12)))
  # shellcheck disable=SC2059
  printf '\x93NUMPY\x'"$2"'\0\x'"$(printf %x $length)"'\0'
  [ "$2" = 1 ] || printf '\0\0'
  printf '%-*s\n' $((length - 1)) "$3"
  # the data is an escaped text
  # shellcheck disable=SC2059
  printf "$4"
} > "$folder/$1"
little() { # NUMBER, in eight bytes
  local k
  for k in 0 8 16 24 32 40 48 56; do printf '\\x%02x' $((($1 >> k) & 255)); done
}
while read -r type version data shape numbers; do
  header="{'descr': '$type', 'fortran_order': False, 'shape': ($shape,), }"
  by_hand a.npy "$version" "$header" "$data"
  wanted=''
  for number in $numbers; do wanted+=$(little "$number"); done
  by_hand wanted.npy 1 "{'descr': '<i8', 'fortran_order': False, 'shape': ($shape,), }" "$wanted"
  printf 'input a "a.npy" shape (%s) chunks (2)\nlet b = a + 1\nsave b "b.npy"\n' "$shape" > "$folder/job.txt"
  for command in run plain sim; do
    rm -f "$folder/b.npy"
    # the options are words
    # shellcheck disable=SC2086
    (cd "$folder" && "$program" ${commands[$command]} > lines 2>&1)
    check "status of $command over $type by hand" "$?" 0
    check "file of $command over $type by hand" "$(cmp "$folder/b.npy" "$folder/wanted.npy" 2>&1 && echo same)" same
  done
done << 'ROWS'
<i4 2 \xff\xff\xff\xff\x01\0\0\0\0\0\0\x80 3 0 2 -2147483647
>i8 1 \0\0\0\0\0\0\0\x02 1 3
>i8 3 \x7f\xff\xff\xff\xff\xff\xff\xff\x80\0\0\0\0\0\0\0 2 -9223372036854775808 -9223372036854775807
>i4 1 \x80\0\0\0\x7f\xff\xff\xff\xff\xff\xff\xfe 3 -2147483647 2147483648 -1
<i2 3 \0\x80\xff\x7f\xfe\xff 3 -32767 32768 -1
>i2 2 \x80\0\x7f\xff\x01\x02 3 -32767 32768 259
|i1 1 \x80\x7f\xff\x05 4 -127 128 0 6
<i8 2 \xff\xff\xff\xff\xff\xff\xff\xff 1 0
ROWS

# what is refused: the bytes, and the reason
while IFS=';' read -r bytes reason; do
  # the bytes are an escaped text
  # shellcheck disable=SC2059
  printf "$bytes" > "$folder/a.npy"
  printf 'input a "a.npy" shape (3) chunks (2)\nsave a "b.npy"\n' > "$folder/job.txt"
  for command in run plain sim; do
    rm -f "$folder/b.npy"
    # shellcheck disable=SC2086
    line=$(cd "$folder" && "$program" ${commands[$command]} 2>&1)
    check "status of $command where it is $reason" "$?" 3
    check "line of $command where it is $reason" "$line" "dask: file a.npy: $reason"
    check "what $command saves where it is $reason" "$(ls "$folder/b.npy" 2> /dev/null)" ''
  done
done << 'ROWS'
\x93NUMPY\x04\0;version 4.0
\x93NUMPY\x02\x01\x10\0\0\0;version 2.1
\x93NUMPY\0\0\x10\0;version 0.0
\x93NUMPY;truncated: has 6, needs 8
\x93NUMPY\x03;truncated: has 7, needs 8
\x93NUMPY\x01\0\x76;truncated: has 9, needs 10
\x93NUMPY\x02\0\x74\0\0;truncated: has 11, needs 12
\x93NUMPY\x03\0\x74\0\0\0{;truncated: has 1, needs 116
\x93NUMPY\x02\0\x01\0\x10\0;header limit 1048577
\x93NUMPY\x03\0\xff\xff\xff\xff;header limit 4294967295
\x93NUMPY\x02\0\0\0\x10\0;truncated: has 0, needs 1048576
\x93NUMPY\x02\0\x0c\0\0\0{'descr': '\xc3;header at 23
\x93NUMPY\x03\0\x0d\0\0\0{'descr': '\xc3';header at 24
ROWS
for type in '<u2' '|u1' '|b1' '<f8' '<i1' '|i8' '=i8' 'int64' '<i16'; do
  by_hand a.npy 3 "{'descr': '$type', 'fortran_order': False, 'shape': (3,), }" '\0\0\0\0\0\0\0\0\0\0\0\0\0\0\0\0\0\0\0\0\0\0\0\0'
  line=$(cd "$folder" && "$program" run job.txt 2>&1)
  check "line of elements $type" "$line" 'dask: file a.npy: descr'
done
by_hand a.npy 3 $'{\'descr\': \'\xe2\x82\xac\', \'fortran_order\': False, \'shape\': (3,), }' '\0'
check 'line of a character past ASCII' "$(cd "$folder" && "$program" run job.txt 2>&1)" 'dask: file a.npy: descr'
while read -r type version data has needs; do
  by_hand a.npy "$version" "{'descr': '$type', 'fortran_order': False, 'shape': (3,), }" "$data"
  check "line of elements $type that are cut off" "$(cd "$folder" && "$program" run job.txt 2>&1)" "dask: file a.npy: truncated: has $has, needs $needs"
done << 'ROWS'
<i2 1 \0\0\0\0\0 5 6
>i4 2 \0\0\0\0\0\0\0\0\0\0\0 11 12
|i1 3 \0\0 2 3
ROWS

if ! /usr/bin/python3 -c 'import numpy' 2> /dev/null; then
  echo 'types: NumPy is not here (Debian: apt-get install python3-numpy), so its files are not tried'
  summary
  exit
fi
/usr/bin/python3 - "$folder" << 'PYTHON'
import os
import sys

import numpy as np

os.chdir(sys.argv[1])
TYPES = ('<i8', '>i8', '<i4', '>i4', '<i2', '>i2', '|i1')
draw = np.random.RandomState(1)


def write(name, shape, dtype, version, order):
    """An array by chance, with the ends of the type's range in it, and the same as int64."""
    limits = np.iinfo(dtype)
    array = draw.randint(limits.min, limits.max, shape, np.int64)
    array.flat[:3] = limits.min, limits.max, -1
    with open(name, 'wb') as file:
        np.lib.format.write_array(file, np.array(array, dtype, order=order), version=(version, 0))
    return array


def job(name, inputs, expression):
    lines = ''.join(f'input {word} "{file}" shape {shape} chunks {chunks}\n' for word, file, shape, chunks in inputs)
    with open(f'{name}.txt', 'w', encoding='ascii') as out:
        out.write(f'{lines}let saved = {expression}\nsave saved "{name}.saved.npy"\n')


names = []
for version in (1, 2, 3):
    for dtype in TYPES:
        for order in 'CF':
            name = f'{version}{dtype[1:]}{"big" if dtype[0] == ">" else ""}{order}'
            a = write(f'{name}.npy', (50, 7), dtype, version, order)
            job(name, [('a', f'{name}.npy', (50, 7), (20, 3))], 'concatenate([a[::-1, 1:5] + 1, a[3:9, ::2] * 3, transpose(a[40:44, :], (1, 0))[1:3]], axis=0)')
            np.save(f'{name}.wanted.npy', np.concatenate([a[::-1, 1:5] + 1, a[3:9, ::2] * 3, a[40:44].T[1:3]]))
            names.append(name)
for k in range(20):
    name, shape = f'three{k}', (30, 11)
    kinds = [(TYPES[draw.randint(7)], draw.randint(1, 4), 'CF'[draw.randint(2)]) for _ in range(3)]
    a, b, c = (write(f'{name}{word}.npy', shape, *kind) for word, kind in zip('abc', kinds))
    job(name, [(word, f'{name}{word}.npy', shape, tuple(map(int, draw.randint(1, 12, 2)))) for word in 'abc'], 'where(a % 2, b * 3, c - a)')
    np.save(f'{name}.wanted.npy', np.where(a % 2, b * 3, c - a))
    names.append(name)
with open('names', 'w', encoding='ascii') as out:
    out.writelines(name + '\n' for name in names)
PYTHON
check 'status of the script that makes files' "$?" 0
while read -r name; do
  cp "$folder/$name.txt" "$folder/job.txt"
  for command in run plain sim; do
    rm -f "$folder/$name.saved.npy"
    # shellcheck disable=SC2086
    (cd "$folder" && "$program" ${commands[$command]} > lines 2>&1)
    check "status of $command $name" "$?" 0
    check "file of $command $name" "$(cmp "$folder/$name.saved.npy" "$folder/$name.wanted.npy" 2>&1 && echo same)" same
  done
done < "$folder/names"
check 'how many files of NumPy were tried' "$(wc -l < "$folder/names")" 62

summary
