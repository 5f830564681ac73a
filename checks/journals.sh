#!/usr/bin/env bash
# Journals of random runs by a cluster of threads, replayed in the model of the rules: each event is enabled there, with the very
# message that was kept, and the printed report is the one that the model counts of them. RUNNER names another driver than the one
# that the gate has built.
cd "$(dirname "$0")/.." || exit 1
about='journals'
. tools/checking.bash
. tools/program.bash

driver=${RUNNER-}
if [ -z "$driver" ] && ! find_driver runner_table; then
  echo 'journals: crates/runner_table has no program of these sources: `rt run` builds it there'
  exit 1
fi
folder=$(mktemp -d)
trap 'rm -rf "$folder"' EXIT

python3 tools/journal_model.py --program "$driver" --runs 40 --seed 1 --leaves 40 --jobs "$(nproc)" > "$folder/lines"
check 'status of 40 replays' "$?" 0
check 'count of 40 replays' "$(grep -c ': agrees$' "$folder/lines")" 40
[ "$failed" = 0 ] || cat "$folder/lines"

# of a journal that the program spoils before, its audit says the very stamp at which the model differs first
python3 tools/journal_model.py --program "$driver" --runs 60 --seed 2 --leaves 40 --spoiled --jobs "$(nproc)" > "$folder/lines"
check 'status of 60 replays of spoiled journals' "$?" 0
check 'count of 60 replays of spoiled journals' "$(grep -c ': agrees$' "$folder/lines")" 60
[ "$failed" = 0 ] || cat "$folder/lines"

# a journal with an entry left out, raised, twice or in another place is refused, but where nothing rests on it
python3 tools/journal_model.py --program "$driver" --spoil 80 <<< 'sum 6 2 1 1 lose:1@3' > "$folder/spoiled"
check 'status of a replay whose entries are then spoiled' "$?" 0
for way in 'left out' 'raised' 'swapped' 'twice'; do
  check "spoiled entries that differ: $way" "$(grep -cE "^  $way, and (differs|stops the model): [1-9]" "$folder/spoiled")" 1
done

# the picture of a run
"$driver" <<< 'sum 6 2 1 1 lose:1@3 journal' | python3 tools/timeline.py > "$folder/run.svg"
check 'status of a picture' "$?" 0
check 'who joins, who ends and whose loss is seen in a picture' \
  "$(python3 -c 'import sys, xml.dom.minidom; it = xml.dom.minidom.parse(sys.argv[1]).getElementsByTagName
print(sum(path.getAttribute("class") == "join" for path in it("path")), sum(path.getAttribute("class") == "loss" for path in it("path")))' "$folder/run.svg")" '3 4'
# the driver's workers keep all blocks in memory, so two entries on a disk are put behind its journal
"$driver" <<< 'sum 3 2 1 1 journal' > "$folder/journal"
last=$(grep -oE '^[0-9]+ ' "$folder/journal" | tail -n 1)
awk -v last="${last% }" '{ print } $1 == last { print last + 1 " spill 1 6"; print last + 2 " lose-spilled 1 6" }' "$folder/journal" > "$folder/spilled"
marks() { python3 tools/timeline.py < "$1" | grep -cE 'class="(disk|gone)"'; }
check 'how many marks two entries of a disk add to a picture' "$(($(marks "$folder/spilled") - $(marks "$folder/journal")))" 2

summary
