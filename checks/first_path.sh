#!/usr/bin/env bash
# The first example through the program itself: its lines, its status and its file, from the root and from another folder.
cd "$(dirname "$0")/.." || exit 1
about='first path'
. tools/checking.bash

rm -f examples/first/raised.npy
lines=$(./dask run examples/first/job.txt)
check 'status' "$?" 0
check 'lines' "$lines" 'saved examples/first/raised.npy (3,)
finished by: cluster
audit: agrees'
check 'file' "$(cmp examples/first/raised.npy examples/first/expected.npy && echo same)" same
if /usr/bin/python3 -c 'import numpy' 2>/dev/null; then
  check 'as NumPy reads it' "$(/usr/bin/python3 -c 'import numpy; print(numpy.load("examples/first/raised.npy"))')" '[2 3 4]'
else
  echo 'first path: NumPy is not here, so its own reading of the file is not checked'
fi
rm -f examples/first/raised.npy

# names are taken from the folder of the call
folder=$(mktemp -d)
root=$PWD
printf 'input a "a.npy" shape (3) chunks (3)\nlet b = a + 40\nsave b "b.npy"\n' > "$folder/job.txt"
cp examples/first/counts.npy "$folder/a.npy"
lines=$(cd "$folder" && "$root/dask" run job.txt)
check 'status in another folder' "$?" 0
check 'lines in another folder' "$lines" 'saved b.npy (3,)
finished by: cluster
audit: agrees'
check 'data in another folder' "$(tail -c 24 "$folder/b.npy" | od -An -v -t d8 | tr -s ' \n' ' ')" ' 41 42 43 '

# each refusal has its status and its line
line=$(cd "$folder" && "$root/dask" walk job.txt 2>&1)
check 'status of unknown words' "$?" 1
check 'line of unknown words' "$line" 'dask: words'
line=$(cd "$folder" && "$root/dask" run missing.txt 2>&1)
check 'status of a missing job' "$?" 5
check 'line of a missing job' "$line" 'dask: read fault'
printf 'save b\n' > "$folder/bad.txt"
line=$(cd "$folder" && "$root/dask" run bad.txt 2>&1)
check 'status of a text that is no job' "$?" 2
check 'line of a text that is no job' "$line" 'dask: job 1:6: unknown name'
printf 'short' > "$folder/a.npy"
line=$(cd "$folder" && "$root/dask" run job.txt 2>&1)
check 'status of a file that is no array' "$?" 3
check 'line of a file that is no array' "$line" 'dask: file a.npy: not npy at 0'
line=$(cd "$folder" && cp "$root/examples/first/counts.npy" a.npy && "$root/dask" run job.txt 2>&1 >/dev/full)
check 'status of a full standard output' "$?" 6
check 'line of a full standard output' "$line" 'dask: write fault'

# a saved file has its name once it is whole, and keeps what it held where it can't be
name=$folder/b.npy
echo before > "$name"
line=$(cd "$folder" && ulimit -f 0 && "$root/dask" run job.txt 2>&1)
check 'status where no file may have a length' "$?" 6
check 'what the name holds then' "$(cat "$name")" before
check 'what is left beside it' "$(ls "$folder")" "$(printf 'a.npy\nb.npy\nbad.txt\njob.txt')"
chmod 640 "$name"
(cd "$folder" && "$root/dask" run job.txt > /dev/null)
check 'status where the name was there' "$?" 0
check 'data where the name was there' "$(tail -c 24 "$name" | od -An -v -t d8 | tr -s ' \n' ' ')" ' 41 42 43 '
check 'permissions where the name was there' "$(stat -c %a "$name")" 640
mv "$name" "$folder/whole.npy" && touch "$folder/aim.npy" && ln -s aim.npy "$name"
(cd "$folder" && "$root/dask" run job.txt > /dev/null)
check 'a link that has the name' "$(readlink "$name")" aim.npy
check 'what it leads to' "$(cmp "$folder/aim.npy" "$folder/whole.npy" && echo same)" same
# what is no regular file is written in place
rm "$name" && mkfifo "$name"
line=$(cd "$folder" && timeout 20 "$root/dask" plain job.txt 2>&1)
check 'status where a pipe that nobody reads has the name' "$?" 6
check 'line where a pipe that nobody reads has the name' "$line" 'dask: write fault'
# the shell has it open to be read from before the command on
exec 8<> "$name" 9< "$name" 8>&-
(cd "$folder" && timeout 20 "$root/dask" plain job.txt > /dev/null)
check 'status where a pipe has the name' "$?" 0
cat <&9 > "$folder/piped.npy"
exec 9<&-
check 'what came through the pipe' "$(cmp "$folder/piped.npy" "$folder/whole.npy" && echo same)" same
rm "$name" && ln -s /dev/full "$name"
line=$(cd "$folder" && "$root/dask" run job.txt 2>&1)
check 'status where a full device has the name' "$?" 6
check 'line where a full device has the name' "$line" 'dask: write fault'
# it takes bytes in their order alone: blocks of rows come so in one thread, blocks of columns don't
ln -sf /dev/null "$name"
printf 'let r = ramp((2, 2), 0, 1, (1, 2))\nsave r "b.npy"\n' > "$folder/rows.txt"
(cd "$folder" && "$root/dask" plain rows.txt > /dev/null 2>&1)
check 'status where a device has the name and rows are saved' "$?" 0
printf 'let r = ramp((2, 2), 0, 1, (2, 1))\nsave r "b.npy"\n' > "$folder/columns.txt"
line=$(cd "$folder" && "$root/dask" run columns.txt 2>&1)
check 'status where a device has the name and columns are saved' "$?" 6
check 'line where a device has the name and columns are saved' "$line" 'dask: write fault'
# saved blocks of 4,096 elements that stand side by side are written together: the elements of a ramp count on
rm "$name"
for chunks in '(64, 64)' '(32, 128)' '(64, (100, 128, 28))' '(64, 256)'; do
  printf 'let r = ramp((64, 256), 0, 1, %s)\nsave r "b.npy"\n' "$chunks" > "$folder/wide.txt"
  for command in run plain 'sim 7'; do
    rm -f "$name"
    # the words of a command
    # shellcheck disable=SC2086
    (cd "$folder" && set -- $command && "$root/dask" "$1" wide.txt ${2-} > /dev/null)
    check "status of $command of blocks side by side, $chunks" "$?" 0
    check "data of $command of blocks side by side, $chunks" "$(tail -c 131072 "$name" | od -An -v -t d8 -w8 | tr -d ' ' | cmp - <(seq 0 16383) && echo same)" same
  done
done
# a sum over both orders of a square: element i is the sum over k of (4096 k + i) + (4096 i + k)
printf 'let a = ramp((4096, 4096), 0, 1, (512, 512))\nlet s = sum(a + a.T, axis=(0))\nsave s "b.npy"\n' > "$folder/square.txt"
for command in run plain 'sim 7'; do
  rm -f "$name"
  # shellcheck disable=SC2086
  (cd "$folder" && set -- $command && "$root/dask" "$1" square.txt ${2-} > /dev/null)
  check "status of $command of a square" "$?" 0
  check "bytes of $command of a square" "$(stat -c %s "$name")" 32896
  check "data of $command of a square" "$(tail -c 32768 "$name" | od -An -v -t d8 -w8 | tr -d ' ' | cmp - <(seq 34359736320 16781312 103079208960) && echo same)" same
done
# what is no regular file is no input
rm "$folder/a.npy" && mkfifo "$folder/a.npy"
line=$(cd "$folder" && timeout 20 "$root/dask" run job.txt 2>&1)
check 'status of a pipe as an input' "$?" 5
check 'line of a pipe as an input' "$line" 'dask: read fault'
rm -rf "$folder"

summary
