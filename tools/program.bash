# What `dask`, .ci/run, tools/release.sh and checks/release.sh share: which crates the program stands on, what it is built
# from, and the notes that say so. A script sources this file and calls its functions from the repository's root.
# A note is a text like release/SOURCES: the kit's line, the SHA-256 of the sources and of the program, and the crates.

program_crate=dask_prog
# A build of this clone, and the program that the repository carries, each with its note.
built=crates/$program_crate/out/$program_crate
built_note=crates/$program_crate/out/SOURCES
released=release/dask
released_note=release/SOURCES

# Sets `crates` to the crates that the program stands on, its own among them, and `lines` to their lines of crates.txt, by name,
# each with one space between words. A name that crates.txt does not list is a library of the kit.
read_crates() {
  local line name uses words head
  local -A listed=()
  declare -gA lines=()
  while read -r line || [ -n "$line" ]; do
    line=${line%%#*}
    # a line is words
    # shellcheck disable=SC2206
    words=($line) head=(${line%%:*})
    [ "${#head[@]}" = 0 ] || listed[${head[0]}]=${words[*]}
  done < crates.txt
  local todo=("$program_crate")
  while [ "${#todo[@]}" -gt 0 ]; do
    name=${todo[-1]}
    unset 'todo[-1]'
    if [ -z "${listed[$name]-}" ] || [ -n "${lines[$name]-}" ]; then continue; fi
    lines[$name]=${listed[$name]}
    uses=${lines[$name]#*:}
    # the names of what it uses, with commas or without
    # shellcheck disable=SC2206
    [[ ${lines[$name]} != *:* ]] || todo+=(${uses//,/ })
  done
  mapfile -t crates < <(printf '%s\n' "${!lines[@]}" | LC_ALL=C sort)
}

# Prints what the program is built from, where KIT is the kit's line: that line, each crate's line of crates.txt, and each
# .rt file's SHA-256 and name. Specs and proofs change no byte of the program.
sources_text() { # KIT
  local crates name folders
  local -A lines
  read_crates
  folders=("${crates[@]/#/crates/}")
  echo "$1"
  for name in "${crates[@]}"; do echo "${lines[$name]}"; done
  find "${folders[@]/%//src}" -name '*.rt' -type f -print0 | LC_ALL=C sort -z | xargs -0 sha256sum
}

# Prints the SHA-256 of a file, or of standard input.
sum() { # [FILE]
  local sum
  read -r sum _ < <(sha256sum "$@") && echo "$sum"
}

sources_sum() { # KIT
  sources_text "$1" | sum
}

kit_line() {
  rt version 2>/dev/null
}

# Prints the note of a program that was built from the present sources.
note_of() { # PROGRAM KIT
  local crates
  local -A lines
  read_crates
  cat << 'TEXT'
# Of what the program beside this file is built. `sources` is the SHA-256 of what the function sources_text of
# tools/program.bash prints: the kit's line, these crates' lines of crates.txt, and the SHA-256 and name of each of their .rt files.
TEXT
  echo "kit $2"
  echo "sources $(sources_sum "$2")"
  echo "program $(sum "$1")"
  printf 'crate %s\n' "${crates[@]}"
}

# Sets `noted_kit`, `noted_sources`, `noted_program`, `noted_crates` and `noted_minutes` to what a note says, nothing where there is none.
read_note() { # NOTE
  local word rest
  noted_kit='' noted_sources='' noted_program='' noted_crates='' noted_minutes=''
  [ -r "$1" ] || return 1
  while read -r word rest; do
    case $word in
      kit) noted_kit=$rest ;;
      sources) noted_sources=$rest ;;
      program) noted_program=$rest ;;
      minutes) noted_minutes=$rest ;;
      crate) noted_crates+="$rest"$'\n' ;;
    esac
  done < "$1"
}

# Whether the program is the one of its note, and was built from the sources as they stand.
is_of_sources() { # PROGRAM NOTE
  [ -x "$1" ] && read_note "$2" && [ -n "$noted_kit" ] &&
    [ "$noted_sources" = "$(sources_sum "$noted_kit")" ] && [ "$noted_program" = "$(sum "$1")" ]
}

# Sets `program` to the program that is of the sources as they stand, this clone's own build first, and `noted_kit` to its
# kit's line. It leaves word of that in release/.checked, where the launcher looks first, or in a cache of the user's; nothing goes
# wrong where it can't.
find_program() {
  local since note root=. cache checked=release/.checked
  if ! since=$({ mkdir -p release && mktemp release/.checked.XXXXXX; } 2> /dev/null); then
    # shellcheck source=tools/checked.sh
    . tools/checked.sh
    since=$([ -z "$checked" ] || mktemp "$checked.XXXXXX" 2> /dev/null)
  fi
  if is_of_sources "$built" "$built_note"; then
    program=$built note=$built_note
  elif is_of_sources "$released" "$released_note"; then
    program=$released note=$released_note
  else
    rm -f "$since"
    return 1
  fi
  # (the time is that before the look at the sources)
  [ -z "$since" ] || { (umask 022 && printf '%s\n' "$program" "$note" > "$since.new") && touch -r "$since" "$since.new" &&
    mv "$since.new" "$checked" && rm "$since"; } 2> /dev/null || rm -f "$since" "$since.new"
}

# Sets `driver` to what this clone has built of a driver, if it is newer than the sources of the crates that it stands on.
find_driver() { # NAME
  local program_crate=$1 crates folders
  local -A lines
  driver=crates/$1/out/$1
  read_crates
  folders=("${crates[@]/#/crates/}")
  [ -x "$driver" ] && [ -z "$(find "${folders[@]/%//src}" -name '*.rt' -newer "$driver" -print -quit)" ]
}

# Notes that the program of this clone was built from the sources as they stand. The line `minutes PROCESSORS MINUTES` tells how long
# a build from nothing took by the clock.
note_built() { # KIT [LINE]
  { note_of "$built" "$1" && [ -z "${2-}" ] || echo "$2"; } > "$built_note"
}

# Proves and builds the program in this clone, and says on standard error what it takes and how far it is.
build_program() {
  local kit before crates line
  local -A lines
  if ! kit=$(kit_line); then
    echo 'the program is not built for these sources, and there is no command rt to build it with' >&2
    return 1
  fi
  read_crates
  echo "the program is proved and built first, of ${#crates[@]} crates, with $(nproc) processors" >&2
  read_note "$released_note"
  if [ -n "$noted_minutes" ]; then
    echo "from nothing that took ${noted_minutes#* } minutes with ${noted_minutes% *} processors; what is proved already is not proved again" >&2
  else
    echo 'how long that takes from nothing was not measured; what is proved already is not proved again' >&2
  fi
  before=$(sources_sum "$kit")
  line=$(python3 tools/prove_crates.py --build "$program_crate" --caller "$$") || return 1
  if [ "$before" != "$(sources_sum "$kit")" ]; then
    echo 'the sources changed while the program was built: build it again' >&2
    return 1
  fi
  note_built "$kit" "$line"
}
