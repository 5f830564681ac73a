#!/usr/bin/env bash
# Times how jobs are lowered: the program block_table, as `rt run` in crates/block_table or the gate left it, counts the keys
# and edges of one large job. The processor time of the whole program, the least of five runs. Run it on a quiet machine.
set -eu
top=$(cd "$(dirname "$0")/.." && pwd)
program=$top/crates/block_table/out/block_table
if [ ! -x "$program" ]; then
  echo "there is no $program: \`rt run\` in crates/block_table makes it" >&2
  exit 1
fi
TIMEFORMAT='%U %S'
line=$(mktemp)
trap 'rm -f "$line"' EXIT
while read -r job; do
  echo "count $job" > "$line"
  least=
  for _ in 1 2 3 4 5; do
    read -r user system < <({ time "$program" < "$line" > /dev/null; } 2>&1)
    least=$(awk -v a="$user" -v b="$system" -v c="${least:-9999}" 'BEGIN { t = a + b; print t < c ? t : c }')
  done
  printf '%6.3f s  %s\n' "$least" "$("$program" < "$line" | sed 's/^count //')"
done <<'END'
let a = ramp((32768), 0, 1, (1)) ; save a "a.npy"
let s = sum(ramp((8192), 0, 1, (1))) ; save s "s.npy"
let r = rechunk(ramp((512, 512), 0, 1, (1, 512)), (512, 1)) ; save r "r.npy"
let r = rechunk(ramp((512, 512), 0, 1, (1, 16)), (16, 1)) ; save r "r.npy"
let a = ramp((2147483647), 0, 1, (1)) ; save a "a.npy"
END
