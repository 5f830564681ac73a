#!/usr/bin/env bash
# The repository's own order: the line of HANDLES, crates that are listed and named in the README, no build products, short files.
cd "$(dirname "$0")/.." || exit 1
passed=0
failed=0
hold() {
  if eval "$2"; then
    passed=$((passed + 1))
  else
    failed=$((failed + 1))
    echo "repository: $1"
  fi
}

hold 'HANDLES is not its one line' '[ "$(cat HANDLES)" = "Handles allowed: Threads, Wait, Net." ]'
hold 'files below an out/ are committed' '! git ls-files | grep -qE "(^|/)out/"'
for folder in crates/*/; do
  [ -d "$folder/src" ] || continue
  crate=$(basename "$folder")
  hold "crates.txt does not list $crate" 'grep -qE "^$crate( |:)" crates.txt'
  hold "crates/$crate/README.md does not begin with the name of its crate" '[ "$(head -n 1 "crates/$crate/README.md")" = "# $crate" ]'
  hold "docs/ARCHITECTURE.md does not name $crate" 'grep -q "\`$crate\`" docs/ARCHITECTURE.md'
done
hold 'README.md has more than 6144 bytes' '[ "$(wc -c < README.md)" -le 6144 ]'
# each link from a rule leads to a file that has the word it stands for
while IFS=' ' read -r word path; do
  hold "docs/RULES.md: $path does not have the word $word" 'grep -qwF -- "$word" "docs/$path"'
done < <(grep -oE '\[`[^`]+`\]\([^)]+\.(rt|antt)\)' docs/RULES.md | sed -E 's/^\[`([^`]+)`\]\(([^)]+)\)$/\1 \2/')
for file in $(git ls-files 'crates/*/src/*.rt'); do
  hold "$file does not begin with //!" '[ "$(head -c 4 "$file")" = "//! " ]'
done
for file in $(git ls-files '*.rt' '*.antt' '*.md'); do
  hold "$file has more than 800 lines" '[ "$(wc -l < "$file")" -le 800 ]'
done

echo "checks: $passed passed, $failed failed"
[ "$failed" = 0 ]
