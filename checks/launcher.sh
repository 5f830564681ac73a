#!/usr/bin/env bash
# The launcher: its own words, which program it runs, and what it does where the sources have moved on.
cd "$(dirname "$0")/.." || exit 1
about='launcher'
. tools/checking.bash

help=$(./dask --help 2>/dev/null)
check 'status of --help' "$?" 0
check 'help is --help' "$(./dask help 2>/dev/null)" "$help"
check 'no words at all are --help' "$(./dask 2>/dev/null)" "$help"
check 'nothing on standard error' "$(./dask --help 2>&1 >/dev/null)" ''
for word in run plain sim gen --workers --threads --memory --saturation --allowed-failures --script --transport --report --spill-folder --progress --help --version --build; do
  check "--help names $word" "$(grep -cE "^  $word([ ,]|\$)" <<< "$help")" 1
done
# the help of one command has its options, and no other's
while read -r command words; do
  for place in '' 'job.txt --memory 1'; do
    # shellcheck disable=SC2086
    check "the words of $command $place --help" "$(./dask $command $place --help 2>/dev/null | grep -oE '^  (--)?[a-z-]+' | xargs)" "$command${words:+ $words}"
  done
  ./dask "$command" --help > /dev/null 2>&1
  check "status of $command --help" "$?" 0
done << 'OPTIONS'
run --workers --threads --saturation --allowed-failures --script --memory --transport --report
plain
sim --workers --threads --saturation --allowed-failures --script
gen --workers --threads
OPTIONS
for words in '' --help 'run --help'; do
  # shellcheck disable=SC2086
  check "a help of '$words' that is read in part" "$(./dask $words 2>&1 > >(exec > /dev/null; head -c 1))" ''
done
check 'behind -- no word is --help' "$(./dask run -- --help 2>&1)" 'dask: read fault'
# every example of a command ends well
while read -r _ words; do
  # the words of an example
  # shellcheck disable=SC2086
  ./dask $words >/dev/null 2>&1
  check "status of the example $words" "$?" 0
done < <(grep -E '^ +\./dask (run|plain|sim|gen|--spill-folder|--progress) ' <<< "$help")
rm -f examples/first/raised.npy

version=$(./dask --version 2>/dev/null)
check 'status of --version' "$?" 0
check 'lines of --version' "$(grep -cE '^dask [0-9]+\.[0-9]+\.[0-9]+$|^rattle-kit-.* logic [0-9a-f]+$' <<< "$version")" 2

# a limit on the size of files is a fault of writing, and no end by a signal
line=$(ulimit -f 0; ./dask run examples/first/job.txt 2>&1)
check 'status under a limit on the size of files' "$?" 6
check 'line under a limit on the size of files' "$line" 'dask: write fault'
rm -f examples/first/raised.npy

# how the program is started: `shown` stands in its place
folder=$(mktemp -d)
cat > "$folder/shown" << 'SHOWN'
#!/bin/sh
echo "$(ulimit -S -s) $(ulimit -H -s) ${GLIBC_TUNABLES%%=*} $#"
SHOWN
chmod +x "$folder/shown"
shown() { # SHELL STACK WORDS ..
  (
    ulimit -S -s "$2" && unset GLIBC_TUNABLES
    shell=$1
    shift 2
    root=$folder program=shown "$shell" -c '. tools/start.sh' "$shell" "$@"
  )
}
hard=$(ulimit -H -s)
for shell in sh bash; do
  check "stacks of $shell that are larger" "$(shown $shell 8192 run 'a b')" "256 $hard glibc.malloc.trim_threshold 2"
  check "stacks of $shell that are smaller" "$(shown $shell 128 run)" "128 $hard glibc.malloc.trim_threshold 1"
  check "stacks of $shell where the words are long" "$(shown $shell 8192 "$(head -c 100000 /dev/zero | tr '\0' a)")" "8192 $hard glibc.malloc.trim_threshold 1"
  [ "$hard" != unlimited ] || check "stacks of $shell without a limit" "$(shown $shell unlimited)" "256 $hard glibc.malloc.trim_threshold 0"
done
rm -r "$folder"

# a folder for blocks on disk, and words that don't fit
check 'the program where a folder for blocks on disk is named' "$(./dask --spill-folder=/tmp run examples/first/job.txt 2>&1)" \
  "$(printf '%s\n' 'saved examples/first/raised.npy (3,)' 'finished by: cluster' 'audit: agrees')"
rm -f examples/first/raised.npy
check 'a folder for blocks on disk alone' "$(./dask --spill-folder /tmp 2>&1)" 'dask: words'
check 'no folder for blocks on disk' "$(./dask --spill-folder 2>&1)" 'dask: words'
check 'a folder for blocks on disk without a name' "$(./dask --spill-folder '' run examples/first/job.txt 2>&1)" 'dask: words'

# where no file can be made, a line says so on a terminal, and on nothing else
folder=$(mktemp -d)
mkdir "$folder/there"
printf 'let a = full((3), 1, (3))\nsave a "there/a.npy"\nsave a "missing/a.npy" # too\n' > "$folder/job.txt"
on_terminal() { # WORDS ..
  (cd "$folder" && python3 -c '
import os, pty, sys
sys.stdout.flush()
own, other = pty.openpty()
if os.fork() == 0:
    os.dup2(other, 2)
    os.dup2(os.open("/dev/null", os.O_WRONLY), 1)
    os.closerange(3, 64)
    os.execv(sys.argv[1], sys.argv[1:])
os.close(other)
held = b""
try:
    while piece := os.read(own, 4096):
        held += piece
except OSError:
    pass
sys.stdout.write(held.decode().replace("\r", ""))' "${command:-$root/dask}" "$@")
}
root=$PWD
disk='no file can be made in missing, so workers keep all blocks in memory'
save='no file can be made beside missing/a.npy, so it can only be written in place'
hint='hint: missing/a.npy can not be made: there is no folder missing'
for words in 'run job.txt' 'plain -- job.txt' 'run --workers 2 --report --threads=1 job.txt' 'sim job.txt 7'; do
  # shellcheck disable=SC2086
  check "what a terminal says of $words" "$(on_terminal $words)" "$(printf '%s\n' "note: $save" 'dask: write fault' "$hint")"
done
check 'what a terminal says of a folder for blocks on disk' "$(on_terminal --spill-folder missing run job.txt)" \
  "$(printf '%s\n' "note: $disk; $save" 'dask: write fault' "$hint")"
printf 'let a = full((3), 1, (3))\nsave a "there/a.npy"\n' > "$folder/job.txt"
check 'what a terminal says of that alone' "$(on_terminal --spill-folder missing run job.txt)" "note: $disk"
check 'what a terminal says of it where no worker runs' "$(on_terminal --spill-folder missing plain job.txt)" ''
check 'what a terminal says where all is well' "$(on_terminal --spill-folder there run job.txt)" ''
check 'what a terminal says of a job that is missing' "$(on_terminal run missing.txt)" \
  "$(printf '%s\n' 'dask: read fault' "hint: there is no missing.txt in $(cd "$folder" && pwd -P)")"
check 'what no terminal says' "$(cd "$folder" && "$root/dask" --spill-folder missing run job.txt 2>&1 > /dev/null)" ''
rm -r "$folder"

# what most likely lies behind each refusal, the line on how far a run is, and ends from outside
for cases in hint_cases terminal_cases; do
  lines=$(python3 "tools/$cases.py" dask 2>&1)
  check "status of $cases" "$?" 0
  read -r _ equal _ different < <(tail -n 1 <<< "$lines")
  if [[ $equal$different =~ ^[0-9]+$ ]]; then
    passed=$((passed + equal))
    failed=$((failed + different))
  fi
  [ "${different:-1}" = 0 ] || printf '%s\n' "$lines"
done

# a copy with what the repository carries, where no command rt answers
folder=$(mktemp -d)
mkdir "$folder/bin" "$folder/clone"
printf '#!/bin/sh\nexit 1\n' > "$folder/bin/rt"
chmod +x "$folder/bin/rt"
tar cf - --exclude=out --exclude=specs --exclude=proofs --exclude=.checked dask crates.txt tools release crates examples/first | (cd "$folder/clone" && tar xf -)
first() { (cd "$folder" && PATH="$folder/bin:$PATH" clone/dask run clone/job.txt 2>&1); }
sed 's,examples/first/,clone/examples/first/,' examples/first/job.txt > "$folder/clone/job.txt"
wanted='saved clone/examples/first/raised.npy (3,)
finished by: cluster
audit: agrees'
source=$folder/clone/crates/dask_prog/src/main.rt
check 'the program of a new clone' "$(first)" "$wanted"
check 'which program that is' "$(head -1 "$folder/clone/release/.checked")" release/dask
check 'the program at the next call' "$(first)" "$wanted"
touch "$source"
check 'the program where a source was only touched' "$(first)" "$wanted"
cp "$source" "$folder/main.rt"
echo '// more' >> "$source"
check 'no program where a source has changed' "$(first)" 'the program is not built for these sources, and there is no command rt to build it with'
check 'still none at the next call' "$(first)" 'the program is not built for these sources, and there is no command rt to build it with'
cp "$folder/main.rt" "$source"
check 'the program where the change was taken back' "$(first)" "$wanted"
echo 'an_unknown_library:' >> "$folder/clone/crates.txt"
check 'the program where a line of another crate came' "$(first)" "$wanted"
echo more >> "$folder/clone/release/dask"
check 'no program where it is not the noted one' "$(first)" 'the program is not built for these sources, and there is no command rt to build it with'
rm -rf "$folder"

# what `make install` makes
folder=$(mktemp -d)
bash tools/install.sh "$folder/place" > "$folder/lines" 2>&1
check 'status of an installation' "$?" 0
check 'the same once more' "$(bash tools/install.sh "$folder/place" 2>&1)" "$(cat "$folder/lines")"
check 'what is in it' "$(ls -A "$folder/place" "$folder/place/lib" "$folder/place/bin" | xargs)" \
  "$folder/place: bin lib $folder/place/bin: yitrovana $folder/place/lib: yitrovana"
printf 'let a = full((3), 1, (3))\nsave a "a.npy"\n' > "$folder/job.txt"
check 'the installed command' "$(cd "$folder" && place/bin/yitrovana plain job.txt 2>&1)" "$(printf '%s\n' 'saved a.npy (3,)' 'finished by: plain')"
check 'its help' "$("$folder/place/bin/yitrovana" --help)" "$(sed 's,\./dask,yitrovana,; s,examples/first/,,' <<< "$help")"
check 'its help of one command' "$("$folder/place/bin/yitrovana" run --help | head -n 1 | cut -d ' ' -f 1-3)" 'usage: yitrovana run'
check 'its version' "$("$folder/place/bin/yitrovana" --version)" "$version"
check 'its build' "$("$folder/place/bin/yitrovana" --build 2>&1)" 'there are no sources here to build the program of'
check 'what it says on a terminal' "$(command=$folder/place/bin/yitrovana && on_terminal run none.txt | tail -n 1)" \
  "hint: there is no none.txt in $(cd "$folder" && pwd -P)"
rm -r "$folder"

# a clone whose release/ can't be written: which program is of its sources is kept in the user's own cache. The superuser, who writes
# everywhere, is somebody else here
folder=$(mktemp -d)
mkdir "$folder/clone" "$folder/home" "$folder/bin"
printf '#!/bin/sh\necho the long way\n' > "$folder/bin/bash"
chmod +x "$folder/bin/bash"
tar cf - --exclude=out --exclude=specs --exclude=proofs --exclude=.checked dask crates.txt tools release crates examples/first | (cd "$folder/clone" && tar xf -)
as_other() { "$@"; }
if [ "$(id -u)" = 0 ]; then
  as_other() { setpriv --reuid=65534 --regid=65534 --clear-groups "$@"; }
  chown -R 65534 "$folder/clone" "$folder/home"
fi
chmod 755 "$folder"
chmod 555 "$folder/clone/release"
# through the program that is found, or by the word of a shell that has nothing but the short way
call() { (cd "$folder/clone" && as_other env HOME="$folder/home" XDG_CACHE_HOME="$1" TMPDIR="$folder/home" PATH="$2$PATH" ./dask run examples/first/job.txt 2>&1); }
wanted='saved examples/first/raised.npy (3,)
finished by: cluster
audit: agrees'
for cache in '' "$folder/home/other"; do
  kept=${cache:-$folder/home/.cache}/dask
  check "the program of a clone that can't be written" "$(call "$cache" '')" "$wanted"
  check 'what is kept of it' "$(find "$kept" -name 'checked-*' -exec head -n 1 {} +)" release/dask
  check 'who may write there' "$(find "$kept" -perm /022)" ''
  check 'the next call' "$(call "$cache" "$folder/bin:")" "$wanted"
  touch "$folder/clone/crates.txt"
  check 'the next call where a file was touched' "$(call "$cache" "$folder/bin:")" 'the long way'
  check 'the same by the long way' "$(call "$cache" '')" "$wanted"
  check 'the call after that' "$(call "$cache" "$folder/bin:")" "$wanted"
  chmod 777 "$kept"
  check 'a call where others can write' "$(call "$cache" "$folder/bin:")" 'the long way'
  chmod 700 "$kept" && chmod 666 "$kept"/checked-*
  check 'a call where others can write what is kept' "$(call "$cache" "$folder/bin:")" 'the long way'
done
rm -rf "$folder"

summary
