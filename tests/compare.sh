#!/usr/bin/env bash
# The engine's run program, host's call, every call from a script and every call from C against the reference on fixed cases; then each slip,
# put into the reference, has to be seen by the same comparison; the engine in two numberings, beside unrounded steps, and with withheld
# cells changed; last, the pages show what the engine gives.
set -eu
[ "${1:-}" != --help ] || { sed -n '2,4s/^# //p' "$0"; exit 0; }
cd "$(dirname "$0")/.."
reference/build.sh
programs=(--run target/compare/run --script target/compare/calls
  --call target/compare/call_sanitized --call target/compare/call_guarded --library target/compare/calls_guarded)
python3 reference/compare.py "${programs[@]}" --sessions 2000 --seed 1
python3 reference/compare.py "${programs[@]}" --slips

# sessions, records and steps on tables in two numberings, with faces turned round; and numberings that are wrong in one figure
numberings=(--run target/compare/run --script target/compare/calls --call target/compare/call_guarded)
python3 reference/numberings.py "${numberings[@]}" --cases 400 --seed 1
python3 reference/numberings.py "${numberings[@]}" --cases 100 --slips

# what is stored is the reference's answer, and what docs/CALLS.md shows is the program's
python3 reference/script.py < crates/calls/stdin | cmp - crates/calls/stdout
target/compare/calls < tests/calls_example.in | cmp - tests/calls_example.out

# the engine's plain steps beside unrounded ones
python3 reference/unrounded.py --script target/compare/calls --lists 300 --seed 2

# lagoons cut in two by the engine, and the engine's plain steps of both parts beside the whole's
python3 reference/cuts.py --script target/compare/calls --cases 400 --seed 2

# the public page and board of two fields that differ in withheld cells only
python3 reference/withheld.py --script target/compare/calls --pairs 400 --seed 2

# shares from survey points: the tool's and the engine's
python3 tests/points.py target/compare/calls

python3 bench/accuracy.py --call target/compare/call_guarded --script target/compare/calls \
  --svg target/compare/accuracy.svg >target/compare/accuracy.md
cmp target/compare/accuracy.svg docs/accuracy.svg
if grep -vxFf docs/ACCURACY.md target/compare/accuracy.md; then
  echo "compare: docs/ACCURACY.md has other figures; make accuracy prints them" >&2
  exit 1
fi
