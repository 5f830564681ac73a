# waited.sh: starts the program on a terminal and waits for its end, with a line on how far it is where --progress is wanted, and below
# the line of a refusal one on what is most likely. `dask` and tools/launch.bash source it, with `root`, `program` and `progress`. It is
# for any shell.

# without a place for the program's line, or a way to leave the signals of a terminal to it, it is started as elsewhere
if ! env --default-signal=INT true 2> /dev/null || ! line_file=$(mktemp 2> /dev/null); then
  . "$root/tools/start.sh"
fi
exec 8> "$line_file" 9< "$line_file"
rm -f "$line_file"

# The signal goes on to the program, once that is started.
child=
early=
pass() {
  early=$1
  [ -z "$child" ] || kill -s "$1" "$child" 2> /dev/null
}

for signal in INT TERM HUP QUIT; do
  # the signal's name is the present one
  # shellcheck disable=SC2064
  trap "pass $signal" "$signal"
done
# a shell has what is behind & ignore a terminal's signals; the program's place is that of the process that is started here
root=$root program=$program env --default-signal=INT,QUIT sh -c '. "$root/tools/start.sh"' dask "$@" <&0 2>&8 8>&- 9<&- &
child=$!
[ -z "$early" ] || pass "$early"
watcher=
if [ -n "$progress" ] && command -v python3 > /dev/null; then
  python3 "$root/tools/show_progress.py" "$child" "$@" 8>&- 9<&- &
  watcher=$!
fi
# a signal ends a wait
while :; do
  wait "$child"
  status=$?
  kill -0 "$child" 2> /dev/null || break
done
if [ -n "$watcher" ]; then
  kill "$watcher" 2> /dev/null
  wait "$watcher" 2> /dev/null
  printf '\r\033[K' >&2
fi
line=$(cat <&9)
[ -z "$line" ] || printf '%s\n' "$line" >&2
case $status in
  1 | 2 | 3 | 5 | 6 | 11) ! command -v python3 > /dev/null || python3 "$root/tools/hints.py" "$status" "$line" "$@" >&2 ;;
esac
if [ "$status" -gt 128 ]; then
  # what the ended program left beside saved files and in the folder for blocks goes, and this ends as it did
  ! command -v python3 > /dev/null || python3 "$root/tools/hints.py" ended '' "$@"
  trap - INT TERM HUP QUIT
  kill -s "$((status - 128))" "$$"
fi
exit "$status"
