# start.sh: starts the program with the words of the script that sources it (`dask`, tools/launch.bash), which has set `root` and
# `program`. It is for any shell.

is_short() { [ "${#1}" -le 32768 ]; }

# The soft limit on stacks is what each thread takes of the address space, and is lowered to what is enough for every job, never
# raised. Words and environment have a quarter of it, at least 128 KiB: where they are longer it stays.
stack=$(ulimit -S -s 2> /dev/null)
if { [ "$stack" = unlimited ] || [ "${stack:-0}" -gt 256 ]; } && is_short "$(export -p)$*"; then
  ulimit -S -s 256
fi

# The C library keeps what blocks leave for those that follow, where it would give it back each time, and asks for large pages. One
# arena serves all threads: else each thread's own keeps what others could use.
export GLIBC_TUNABLES="${GLIBC_TUNABLES-glibc.malloc.trim_threshold=1073741824:glibc.malloc.mmap_threshold=33554432:glibc.malloc.hugetlb=1:glibc.malloc.arena_max=1}"
exec "$root/$program" "$@"
