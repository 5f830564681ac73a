#!/usr/bin/env bash
# Every example by the simulated cluster, through the program itself: the files are those of NumPy, and the same words print the
# same. And jobs that end otherwise.
cd "$(dirname "$0")/.." || exit 1
about='simulation'
. tools/checking.bash

job=examples/first/job.txt
for options in '' '--workers 1 --threads 1' '--saturation 20 --script lose:1@1,join@1'; do
  rm -f examples/first/raised.npy
  # the options are words of their own
  # shellcheck disable=SC2086
  lines=$(./dask sim $job 7 $options)
  check "status with options '$options'" "$?" 0
  check "file with options '$options'" "$(cmp examples/first/raised.npy examples/first/expected.npy && echo same)" same
  check "first lines with options '$options'" "$(head -3 <<< "$lines")" 'saved examples/first/raised.npy (3,)
keys 4
edges 2'
  check "last line with options '$options'" "$(tail -1 <<< "$lines")" 'finished by: simulation'
  # shellcheck disable=SC2086
  check "lines again with options '$options'" "$(./dask sim $job 7 $options)" "$lines"
done
rm -f examples/first/raised.npy

# the shape that each other job saves, as the program prints it, and the keys and edges of its graph
jobs='anomaly 14 17 (12, 6)
co_occurrence 69 108 (15, 15)
coarse_grid 63 72 (18, 36)
column_sum 7 6 (5,)
grid_axes 74 76 (6, 8, 10)
joined_years 47 51 (23, 25)
mask 16 16 (8, 7)
matrix_product 7 6 (5, 3)
missing 46 58 (20,)
moving_mean 99 116 (58, 15)
packed 108 144 (12, 16)
peak_month 37 48 (40,)
per_mille 32 36 (40, 18)
quota 27 30 (52, 30)
transpose 16 12 (4, 6)'
while read -r name keys edges shape; do
  for options in '' '--workers 3 --threads 1 --script lose:1@2,join@3,suspect:2@5'; do
    rm -f "examples/$name/saved.npy"
    # shellcheck disable=SC2086
    lines=$(./dask sim "examples/$name/job.txt" 7 $options 2>&1)
    check "status of $name with options '$options'" "$?" 0
    check "file of $name with options '$options'" "$(cmp "examples/$name/saved.npy" "examples/$name/expected.npy" && echo same)" same
    check "first lines of $name with options '$options'" "$(head -3 <<< "$lines")" "saved examples/$name/saved.npy $shape
keys $keys
edges $edges"
    check "last line of $name with options '$options'" "$(tail -1 <<< "$lines")" 'finished by: simulation'
    rm -f "examples/$name/saved.npy"
  done
done <<< "$jobs"
for folder in examples/*/; do
  name=$(basename "$folder")
  case $name in
    # the input of `large` isn't kept here: checks/examples.sh makes it
    first | large | zero_effort) ;;
    *) check "$name is in the list" "$(grep -c "^$name " <<< "$jobs")" 1 ;;
  esac
done
line=$(./dask sim examples/zero_effort/job.txt 7 2>&1)
check 'status of zero_effort' "$?" 4
check 'line of zero_effort' "$line" 'dask: zero division: node 2 block (2, 0)'

line=$(./dask sim $job 7 --workers 1 --script lose:1@1 2>&1)
check 'status of a script that takes the only worker' "$?" 1
check 'line of a script that takes the only worker' "$line" 'dask: words'

folder=$(mktemp -d)
root=$PWD
# a worker leaves while a task is assigned to it: once more than is allowed, and as often
printf 'let a = ramp((1), 0, 1, (1))\nlet b = a + 1\nsave b "b.npy"\n' > "$folder/job.txt"
for number in 0 7 18446744073709551615; do
  line=$(cd "$folder" && "$root/dask" sim job.txt "$number" --workers 2 --threads 1 --script suspect:1@1 --allowed-failures 0 2>&1)
  check "status of a task whose worker may not leave, by $number" "$?" 11
  check "line of a task whose worker may not leave, by $number" "$line" 'dask: killed worker: key 1 losses 1'
  check "what is left then, by $number" "$(ls "$folder")" job.txt
  (cd "$folder" && "$root/dask" sim job.txt "$number" --workers 2 --threads 1 --script suspect:1@1 --allowed-failures 1 > /dev/null)
  check "status of a task whose worker may leave once, by $number" "$?" 0
  check "data of a task whose worker may leave once, by $number" "$(tail -c 8 "$folder/b.npy" | od -An -v -t d8 | tr -d ' ')" 1
  rm -f "$folder/b.npy"
done

# a job of 19,115 tasks: the sum of 0 to 8191 is 8192 * 8191 / 2
printf 'let s = sum(ramp((8192), 0, 1, (1)))\nsave s "s.npy"\n' > "$folder/job.txt"
lines=$(cd "$folder" && "$root/dask" sim job.txt 1 --workers 4)
check 'status of a job of many tasks' "$?" 0
check 'first lines of a job of many tasks' "$(head -3 <<< "$lines")" 'saved s.npy ()
keys 19115
edges 19114'
check 'data of a job of many tasks' "$(tail -c 8 "$folder/s.npy" | od -An -v -t d8 | tr -d ' ')" 33550336
rm -f "$folder/s.npy"

# a divisor of 0 counts in the blocks that are needed, and in no other: the quotient's first block has one, its second none
quotient='let x = ramp((4), 1, 1, (2))\nlet d = ramp((4), -1, 1, (2))\nlet q = (x // d)'
for command in 'run job.txt' 'plain job.txt' 'sim job.txt 7'; do
  printf '%b[2:4]\nsave q "q.npy"\n' "$quotient" > "$folder/job.txt"
  # the words of a command
  # shellcheck disable=SC2086
  (cd "$folder" && "$root/dask" $command > /dev/null 2>&1)
  check "status of $command where the block isn't needed" "$?" 0
  check "data of $command where the block isn't needed" "$(tail -c 16 "$folder/q.npy" | od -An -v -t d8 | tr -s ' \n' ' ')" ' 3 2 '
  for slice in '[5:2]' '[0:1]'; do
    echo before > "$folder/q.npy"
    printf '%b%s\nsave q "q.npy"\n' "$quotient" "$slice" > "$folder/job.txt"
    # shellcheck disable=SC2086
    line=$(cd "$folder" && "$root/dask" $command 2>&1)
    check "status of $command of a zero division in $slice" "$?" 4
    check "line of $command of a zero division in $slice" "$line" 'dask: zero division: node 2 block (0)'
  done
  # the file isn't whole, so that the name keeps what it held
  check "what the name holds after $command" "$(cat "$folder/q.npy")" before
  # no input is looked for where a limit is passed
  printf 'input a "none.npy" shape (32769) chunks (1)\nsave a "q.npy"\n' > "$folder/job.txt"
  # shellcheck disable=SC2086
  line=$(cd "$folder" && "$root/dask" $command 2>&1)
  check "status of $command of too many keys" "$?" 9
  check "line of $command of too many keys" "$line" 'dask: limit keys'
  check "what is left after $command" "$(ls "$folder")" "$(printf 'job.txt\nq.npy')"
  rm "$folder/q.npy"
done

# the job that a number makes: the same lines twice, no file, and the digest of the file that the other commands save
lines=$(cd "$folder" && "$root/dask" gen 7)
check 'status of gen 7' "$?" 0
digest=63af66b6d58021b4918e89dd87e866fd0dbbf5f4745f78bd2c28313b28b550a4
check 'first lines of gen 7' "$(head -3 <<< "$lines")" "s (71,) sha256 $digest
keys 315
edges 535"
check 'lines of gen 7 again' "$(cd "$folder" && "$root/dask" gen 7)" "$lines"
check 'what is left after gen 7' "$(ls "$folder")" job.txt
printf '%s\n' 'let a = ramp((71, 64), 7, 3, (15, 15))' 'let t = tensordot(a, a.T, (1), (0))' 'let s = sum(t + 7, axis=(0))' 'save s "s.npy"' > "$folder/job.txt"
for command in 'run job.txt' 'plain job.txt' 'sim job.txt 7'; do
  # shellcheck disable=SC2086
  (cd "$folder" && "$root/dask" $command > "$folder/lines")
  check "digest of the file of $command" "$(sha256sum < "$folder/s.npy" | cut -d ' ' -f 1)" "$digest"
  rm "$folder/s.npy"
done
check 'the report of sim and of gen' "$(sed '1d;$d' "$folder/lines")" "$(sed 1d <<< "$lines")"
rm -rf "$folder"

# random simulations, most of them with a bound on losses, beside the model of tools/
if /usr/bin/python3 -c 'import numpy' 2> /dev/null; then
  lines=$(/usr/bin/python3 tools/random_simulations.py ./dask 100 1)
  check 'status of 100 random simulations' "$?" 0
  check 'last line of 100 random simulations' "$(tail -1 <<< "$lines" | cut -d ' ' -f 1-4)" '100 equal, 0 differ'
  [ "$failed" = 0 ] || echo "$lines"
else
  echo 'simulation: the random ones are left out, since NumPy is not here (Debian: apt-get install python3-numpy)'
fi

summary
