# launch.bash ROOT WORDS ..: what `dask` does where it can't run the program at once: it looks which program is of the sources as
# they stand, builds one where none is, and answers --version and --build. --progress may stand before
# the words.
version=0.1.0

root=$1
shift
progress=
[ "${1-}" != --progress ] || { progress=$1 && shift; }
# shellcheck source=tools/program.bash
. "$root/tools/program.bash" || exit 70
if [ ! -e "$root/crates.txt" ]; then
  # an installation, as tools/install.sh makes it
  [ "${1-}" = --version ] || { echo 'there are no sources here to build the program of' >&2 && exit 70; }
  echo "dask $version"
  read_note "$root/$released_note" && echo "$noted_kit"
  exit
fi
case ${1-} in
  --version)
    cd "$root" || exit 70
    echo "dask $version"
    if find_program; then echo "$noted_kit"; else kit_line || echo 'not built, and no kit to build it with'; fi
    ;;
  --build)
    cd "$root" || exit 70
    is_of_sources "$built" "$built_note" || build_program || exit 70
    echo "$built"
    ;;
  *)
    program=$(cd "$root" && { find_program || { build_program && find_program; }; } && echo "$program") || exit 70
    start=start
    [ ! -t 2 ] || start=waited
    # shellcheck source=tools/start.sh disable=SC1091
    . "$root/tools/$start.sh"
    ;;
esac
