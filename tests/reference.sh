#!/usr/bin/env bash
# Figures, records and sessions by the reference program, plain steps beside unrounded ones, lagoons cut in two beside the whole, public
# pages and boards of fields that differ in withheld cells, and the comparisons with the reference on both sides.
set -eu
[ "${1:-}" != --help ] || { sed -n '2,3s/^# //p' "$0"; exit 0; }
cd "$(dirname "$0")/.."
python3 reference/test_reference.py
python3 reference/unrounded.py --lists 600 --seed 1
python3 reference/cuts.py --cases 400
python3 reference/cuts.py --slips --cases 100
python3 reference/withheld.py --pairs 800 --seed 1
python3 reference/withheld.py --slips
python3 reference/test_compare.py
reference=python3:reference/lagoon.py
python3 reference/numberings.py --run $reference --call $reference --script $reference --cases 400
python3 reference/numberings.py --run $reference --call $reference --script $reference --cases 100 --slips
