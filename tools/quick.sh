#!/usr/bin/env bash
# The tests for every day: all but the two comparisons, in two lanes, since those of papers alone need nothing built. Each tells its time.
set -u
[ "${1:-}" != --help ] || { sed -n '2s/^# //p' "$0"; exit 0; }
cd "$(dirname "$0")/.."
papers='arithmetic cites'
made=$(mktemp -d)
trap 'rm -r "$made"' EXIT

lane() { # NAME..: each test's words when it has ended; the first that fails ends the lane
  local name began
  for name in "$@"; do
    began=$SECONDS
    bash "tests/$name.sh" > "$made/$name" 2>&1 || { printf '== %s FAILED\n%s\n' "$name" "$(cat "$made/$name")"; return 1; }
    printf '== %s, %d s\n%s\n' "$name" $((SECONDS - began)) "$(cat "$made/$name")"
  done
}

others=
for script in tests/*.sh; do
  name=$(basename "$script" .sh)
  case " $papers compare reference " in *" $name "*) ;; *) others="$others $name" ;; esac
done
lane $papers &
lane $others
built=$?
wait $! && [ $built = 0 ] && echo "the tests but for compare and reference hold: $SECONDS s" || { echo 'make quick: a test has failed, see above'; exit 1; }
