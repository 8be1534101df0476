#!/usr/bin/env bash
# Every file, name and quoted line that README.md, the pages of docs/ and the landing notes cite is there and every link leads somewhere, the
# crates stand under the same headings everywhere, laws are cited where it is said, the causes are told alike, every imported name is used,
# demand 3 rests on the definitions that are named, every sign in a definition is explained, every must-fail edit is one that rt reads whole,
# and the C library's calls promise what the libraries promise; and the tests do find what is wrong.
set -eu
cd "$(dirname "$0")/.."
# the page of the port names what is gone
python3 tests/cites.py README.md $(ls docs/*.md | grep -vx docs/PORT.md) docs/landings/*.md

made=$(mktemp -d)
trap 'rm -r "$made"' EXIT
found() { # PAGE SED-EXPRESSION: the page changed by it has to be refused
  sed "$2" "$1" > "$made/page.md"
  if cmp -s "$1" "$made/page.md"; then echo "$2 changes nothing in $1"; exit 1; fi
  if python3 tests/cites.py --as "$1" "$made/page.md" > "$made/said" 2>&1; then echo "$2 in $1 is not found"; exit 1; fi
}
cp docs/PROMISES.md "$made/page.md"
python3 tests/cites.py --as docs/PROMISES.md "$made/page.md" > "$made/said"     # what stands there unchanged is right
found docs/PROMISES.md 's/`refused-promise`/`refused-promises`/'
found docs/PROMISES.md 's,`step_limiter/must-fail/plain_upwind.edit`,`transport/must-fail/plain.edit`,g'
found docs/PROMISES.md 's,\[`transport/specs/Promise.antt`\],`transport/specs/Promise.antt` †,'
found docs/PROMISES.md 's/: `◌and_then◌` and `each`/: `◌and_then◌` and `eachOf`/'
found docs/PROMISES.md 's/| \[Stage 1: upwind\]/| [Stage 1: upwinds]/'
found docs/PROMISES.md 's/^### Stage 1: upwind/### Stage 1/'
found docs/PROMISES.md 's,\[`judging/src/lib.rt`\],`judging/src/lib.rt`,'
found docs/PROMISES.md '/^\[`record_zeros.src.lib.rt`\]:/d'
found docs/PROMISES.md 's,: \.\./crates/record_zeros/src/lib.rt,: ../crates/record_zeros/src/lib.antt,'
found docs/PROMISES.md 's/, \[Refused steps\]//'
found docs/ACCURACY.md 's/(accuracy.svg)/(accurate.svg)/'
found docs/CALLS.md 's/^total: accepted 200000/total: accepted 200001/'
found docs/CALLS.md 's/^    masses: &\[u64\],/    masses: \&[u32],/'
found docs/landings/S-04.md 's,`store_kept/specs/Store.antt`,`store/specs/Store.antt`,'

python3 tests/laws.py
sed 's#`judging/proofs/Own.antt`, charge_billed#`judging/proofs/Laws.antt`, charge_billed#' docs/DESIGN.md > "$made/page.md"
if python3 tests/laws.py "$made/page.md" > "$made/said" 2>&1; then echo "a file that cites no law is not found"; exit 1; fi

python3 tests/rests.py
sed 's#^| \[`model/specs/Claims.antt`\].*##' docs/PROMISES.md > "$made/page.md"
if python3 tests/rests.py "$made/page.md" > "$made/said" 2>&1; then echo "a definition that demand 3 rests on and no row names is not found"; exit 1; fi

python3 tests/notation.py
sed 's/`quot_z a b`/a by b/' docs/NOTATION.md > "$made/page.md"
if python3 tests/notation.py "$made/page.md" > "$made/said" 2>&1; then echo "a name that is not explained is not found"; exit 1; fi

python3 tests/families.py
sed 's/^step_portion: /step_portions: /' crates.txt > "$made/crates.txt"
if python3 tests/families.py "$made/crates.txt" > "$made/said" 2>&1; then echo "a crate that docs/DESIGN.md does not have is not found"; exit 1; fi
sed 's/^  charge\*  /  charge   /' README.md > "$made/page.md"
if python3 tests/families.py crates.txt "$made/page.md" > "$made/said" 2>&1; then echo "a crate that README.md's families do not have is not found"; exit 1; fi

python3 tests/causes.py
other() { # PAGE SED-EXPRESSION: a cause that is told otherwise has to be found
  sed "$2" "$1" > "$made/page.md"
  if cmp -s "$1" "$made/page.md"; then echo "$2 changes nothing in $1"; exit 1; fi
  if python3 tests/causes.py --in "$1" "$made/page.md" > "$made/said" 2>&1; then echo "$2 in $1 is not found"; exit 1; fi
}
other docs/CALLS.md 's/^| 21 | `Moved` |/| 21 | `Bounds` |/'
other docs/CALLS.md '/^| 27 | `Mark`/d'
other README.md 's/9 inflow and outflow differ, 10 outflow above the volume/9 outflow above the volume, 10 inflow and outflow differ/'
other docs/ARITHMETIC.md '/^| 16 | a store/d'
other docs/ARITHMETIC.md 's/^| 15 | a name 0, above 65,535/| 15 | a name 0, above 4,095/'
other docs/ARITHMETIC.md 's/^\(| 22 | .*\) | cell |$/\1 | face |/'
other include/lagoon.h 's/a volume outside 1 to 65,535;/a volume outside 1 to 4,096;/'
other include/lagoon.h '/^    LAGOON_PERIOD = 26/d'
other python/lagoon/causes.py 's/"a wrong bit in a record"/"a record of the wrong kind"/'
other include/lagoon.h 's/"record of the wrong length"/"a flux larger than its reach"/'

python3 tests/imports.py
sed '0,/^use /s//use lib.Nowhere.{◌unused◌, used-nowhere}\nuse /' crates/model/proofs/Turned.antt > "$made/Turned.antt"
if python3 tests/imports.py "$made/Turned.antt" > "$made/said" 2>&1; then echo "an imported name that is used nowhere is not found"; exit 1; fi

python3 tests/edits.py
mkdir -p "$made/bits/must-fail"
cp -r crates/record_bits/src "$made/bits/src"
printf 'file: src/lib.rt\nold: fn wide(x: u8) -> u64\n    ensures\nnew: fn wide(x: u8) -> u64\n    requires\n' > "$made/bits/must-fail/lines.edit"
if python3 tests/edits.py "$made/bits/must-fail/lines.edit" > "$made/said" 2>&1; then echo "an edit of several lines is not found"; exit 1; fi

tools/exports.py --check
mkdir -p "$made/tree/tools"
cp tools/exports.py "$made/tree/tools/"
cp crates.txt "$made/tree/"
tar -c crates/*/src | tar -x -C "$made/tree"
"$made/tree/tools/exports.py" --check > "$made/said"
sed -i 's/^    ensures { PageFromC volumes.now masses.now/    ensures { PageFromC masses.now volumes.now/' "$made/tree/crates/lagoon_c/src/host_field_c.rt"
if "$made/tree/tools/exports.py" --check > "$made/said"; then echo "a call from C that promises something else is not found"; exit 1; fi
