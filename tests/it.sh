# What the shell tests share, to be sourced: the repository's root, a folder of their own in $work that goes with the
# script, named tests with their counts, counts of others, and the last line 'N passed, M failed'.
set -u
root=$(cd "$(dirname "${BASH_SOURCE[0]}")/.." && pwd) && work=$(mktemp -d) || { echo '0 passed, 1 failed'; exit 1; }
trap 'rm -rf "$work"' EXIT
passed=0
failed=0

# it NAME COMMAND..: a test, which passes where the command's exit status is 0; it runs by itself, so its 'cd' ends with
# it
it() {
  local name=$1
  shift
  if ("$@") > "$work/said" 2>&1; then
    passed=$((passed + 1))
    echo "ok      $name"
  else
    failed=$((failed + 1))
    echo "FAILED  $name"
    sed 's/^/        /' "$work/said"
  fi
}

# tally COMMAND..: tests that print their own lines, the last one 'N passed, M failed', which is added up
tally() {
  local said status
  said=$("$@" 2>&1)
  status=$?
  sed '$d' <<< "$said"
  if [[ $said =~ ([0-9]+)' passed, '([0-9]+)' failed'$ ]]; then
    passed=$((passed + BASH_REMATCH[1])) failed=$((failed + BASH_REMATCH[2]))
  else
    echo "$said" "($status)"
    failed=$((failed + 1))
  fi
}

# counted: the last line, and the exit status 0 only where no test failed
counted() {
  echo "$passed passed, $failed failed"
  [ "$failed" -eq 0 ]
}
