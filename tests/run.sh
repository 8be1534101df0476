#!/usr/bin/env bash
# The run program on stored sessions: NAME.in of tests/sessions printed as NAME.out, whole and byte by byte; the largest mesh and the
# longest records, whose input is made here; and a long list of steps.
set -eu
cd "$(dirname "$0")/.."
made=$(mktemp -d)
trap 'rm -r "$made"' EXIT

tools/prove.py run 2> "$made/check" || { cat "$made/check"; exit 1; }
program=target/bin/run

count=0
same() { # NAME EXPECTED: what the program printed of it
  cmp -s "$made/out" "$2" || { echo "$1: printed otherwise than $2"; diff "$made/out" "$2" | head -n 10; exit 1; }
  count=$((count + 1))
}

for input in tests/sessions/*.in; do
  name=$(basename "$input" .in)
  "$program" < "$input" > "$made/out"
  same "$name" "tests/sessions/$name.out"
  dd bs=1 status=none if="$input" | "$program" > "$made/out"
  same "$name, byte by byte" "tests/sessions/$name.out"
done

for name in largest longest; do
  python3 tests/make_sessions.py $name > "$made/$name.in"
  "$program" < "$made/$name.in" > "$made/out"
  same $name tests/sessions/$name.out
  dd bs=997 status=none if="$made/$name.in" | "$program" > "$made/out"
  same "$name, in pieces" tests/sessions/$name.out
done

python3 tests/make_sessions.py long > "$made/long.in"
"$program" < "$made/long.in" | tail -n 4 > "$made/out"
same long tests/sessions/long_end.out

echo "$count sessions printed as stored"
