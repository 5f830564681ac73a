#!/usr/bin/env bash
# Prints the table of docs/GATE.md: of each crate its functions, the lines of its code and of its specs and proofs, the
# processor seconds of its proof from nothing, and its must-fail edits.
#
# usage: tools/gate_times.sh [PREFIX]
#
# Without a word it proves all crates from nothing, in a fresh clone of what is committed: about as long as a whole gate. With
# PREFIX it takes the logs of an earlier such run, the files PREFIXNAME.log, whose last line is `cpu USER SYS`. A crate that was
# not proved from nothing, since rt took over what another clone on the machine had proved, is marked by a star: its seconds say
# too little.
cd "$(dirname "$0")/.." || exit 1
prefix=${1-}
if [ -z "$prefix" ]; then
  room=$(mktemp -d) || exit 1
  readonly room
  trap 'rm -rf "$room"' EXIT
  clone=$room/clone prefix=$room/logs/
  mkdir "$prefix" && git clone -q . "$clone" && "$clone/tools/prove_crates.py" --logs "$prefix" || exit 1
fi

lines() { # of the files of this kind below these folders
  find "${@:2}" -name "*.$1" -type f -exec cat {} + 2> /dev/null | wc -l
}

rows=
for crate in crates/*/; do
  crate=${crate%/} name=${crate##*/}
  functions=$(find "$crate/src" -name '*.rt' -type f -exec cat {} + | grep -cE '^ *(pub(\([a-z ]+\))? )?(const )?(unsafe )?fn ')
  edits=$(find "$crate/must-fail" -name '*.edit' 2> /dev/null | wc -l)
  log=$prefix$name.log seconds=0 star='-'
  if read -r seconds < <(tail -n 1 "$log" 2> /dev/null | awk '$1 == "cpu" { printf "%.0f\n", $2 + $3 }'); then
    star=
    grep -q "^rt: $name: begins with what a check kept" "$log" && star='*'
  fi
  rows+="$name $functions $(lines rt "$crate/src") $(lines antt "$crate/specs" "$crate/proofs") ${seconds:-0} $edits $star"$'\n'
done
echo '| Crate | Functions | Lines of code | Lines of specs and proofs | Processor seconds of its proof | Edits |'
echo '|---|---|---|---|---|---|'
sort -k5,5nr -k1,1 <<< "${rows%$'\n'}" | awk '
  { print "| `" $1 "` | " $2 " | " $3 " | " $4 " | " ($7 == "-" ? "-" : $5 $7) " | " $6 " |"
    for (i = 2; i <= 6; i++) sum[i] += $i; if ($7 == "*") some = 1 }
  END { print "| " NR " crates | " sum[2] " | " sum[3] " | " sum[4] " | " sum[5] " | " sum[6] " |"
    if (some) print "\n\\* not from nothing: rt took over what another clone on the machine had proved" }'
