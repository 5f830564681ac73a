# checked.sh: sets `checked` to the file that keeps which program is of the sources of `root`, where release/ can't be written. It is in
# the user's own cache, and in no folder that others can write. `dask` and tools/program.bash source it. It is for any shell.
checked=
cache=${XDG_CACHE_HOME:-${HOME:+$HOME/.cache}}
[ -n "$cache" ] && cache=$cache/dask || cache=${TMPDIR:-/tmp}/dask-$(id -u)
if (umask 077 && mkdir -p "$cache") 2> /dev/null && [ -O "$cache" ] && [ ! -h "$cache" ]; then
  checked=$(cd "$root" && pwd -P | sha256sum) && checked=$cache/checked-${checked%% *}
  if [ -e "$checked" ] && [ ! -O "$checked" ] || [ -n "$(find -H "$cache" "$checked" -maxdepth 0 -perm /022 2> /dev/null)" ]; then
    checked=
  fi
fi
