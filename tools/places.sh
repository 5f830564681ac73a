# places.sh: says in one line on standard error, which is a terminal, where the program can make no file: none for blocks that workers
# put on a disk, or none beside a saved one. `dask` sources it, with the program's words as its own. It is for any shell.

# Whether files can be made in a folder.
has_room() { [ -d "$1" ] && [ -w "$1" ] && [ -x "$1" ]; }

# Sets `job` to the file of the job that a command's words name, or to nothing.
find_job() {
  job=
  shift
  while [ "$#" -gt 0 ]; do
    case $1 in
      --) job=${2-} && return ;;
      --report | --*=*) ;;
      --*) [ "$#" -lt 2 ] || shift ;;
      *) job=$1 && return ;;
    esac
    shift
  done
}

# Prints the folder in which a part of a saved file is made, nothing where the file is written in place since it is no regular one.
folder_of() {
  target=$1
  [ ! -L "$target" ] || target=$(readlink -f -- "$target") || return
  [ ! -e "$target" ] || [ -f "$target" ] || return
  case $target in
    /*/*) echo "${target%/*}" ;;
    /*) echo / ;;
    */*) echo "./${target%/*}" ;;
    *) echo . ;;
  esac
}

# Prints each name of a job's text that is saved to and beside which no file can be made.
places_without_room() {
  LC_ALL=C sed -n 's/^[[:blank:]]*save[[:blank:]]\{1,\}[A-Za-z_][A-Za-z0-9_]*[[:blank:]]*"\([^"\]*\)".*/\1/p' "$1" |
    while IFS= read -r name; do
      folder=$(folder_of "$name")
      [ -z "$folder" ] || has_room "$folder" || echo "$name"
    done
}

# Says what a command can't make.
tell_places() {
  find_job "$@"
  note=
  [ "$1" != run ] || has_room "${DASK_SPILL:-.}" ||
    note="no file can be made in ${DASK_SPILL:-the folder of the call}, so workers keep all blocks in memory"
  if [ -f "$job" ] && [ -r "$job" ] && name=$(places_without_room "$job" | head -n 1) && [ -n "$name" ]; then
    note="${note:+$note; }no file can be made beside $name, so it can only be written in place"
  fi
  [ -z "$note" ] || printf 'note: %s\n' "$note" >&2
}

case ${1-} in run | plain | sim) tell_places "$@" ;; esac
