# What the scripts in checks/ share: a comparison of what came with what is wanted, and the last line with its status.
# A script sets `about` to its name, and sources this file from the root.
passed=0
failed=0
check() {
  if [ "$2" = "$3" ]; then
    passed=$((passed + 1))
  else
    failed=$((failed + 1))
    printf '%s: %s: got\n%s\nwanted\n%s\n' "${about:?}" "$1" "$2" "$3"
  fi
}

summary() {
  echo "checks: $passed passed, $failed failed"
  [ "$failed" = 0 ]
}
