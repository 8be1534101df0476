#!/usr/bin/env bash
# The calls from C and Python: the header says what the engine has, and the archive has what the header declares; the examples compile, run and
# print what is stored; a host in C prints what the run program prints. tests/compare.sh holds every call against the reference.
set -euo pipefail
cd "$(dirname "$0")/.."

# numbers that stand in the header and in the engine are the same
number() { # NAME: a constant of the model
  sed -n "s/^pub const $1: [a-z0-9]* = \([0-9]*\);$/\1/p" crates/model/src/lib.rt
}
says() { # TEXT: a line of the header begins with it
  grep -qE "^$1([^0-9A-Za-z]|$)" include/lagoon.h || { echo "include/lagoon.h: no line begins with '$1'"; exit 1; }
}
says "#define LAGOON_MAX_CELLS $(number RUN_CELLS)"
says "#define LAGOON_MAX_FACES $(number RUN_FACES)"
says "#define LAGOON_TABLE_MAX_CELLS $(number MAX_CELLS)"
says "#define LAGOON_TABLE_MAX_FACES $(number MAX_FACES)"
says "#define LAGOON_RIM $(number RIM)"
for name in SHARE CONCENTRATION; do says "#define LAGOON_MAX_$name $(number MAX_$name)"; done
for name in VOLUME REACH RIM_FLUX; do says "#define LAGOON_MAX_$name $(number CEILING)"; done
says "#define LAGOON_NARROW_MAX $(number OLD_CEILING)"
causes=$(sed -n 's/^number \([A-Za-z]*\) = \([0-9]*\)$/\1 \2/p' crates/model/specs/Answers.antt)
echo "$causes" | while read -r cause n; do says "    LAGOON_$(echo "$cause" | tr a-z A-Z) = $n"; done
[ "$(grep -cE '^    LAGOON_[A-Z]+ = ' include/lagoon.h)" = "$(echo "$causes" | wc -l)" ] \
  || { echo "include/lagoon.h: causes and the model's do not match"; exit 1; }
mkdir -p target
# a table's position: LAGOON_AT_ and the word before its entries in docs/CALLS.md
awk -F' *[|] *' '/^\| Position \|/ {on = 1; next} on && !NF {exit} on && $2 ~ /^[0-9]+$/ {print $2, $3}' docs/CALLS.md > target/positions
[ "$(wc -l < target/positions)" = "$(grep -c '^    LAGOON_AT_' include/lagoon.h)" ] || { echo "include/lagoon.h: positions and docs/CALLS.md do not match"; exit 1; }
while read -r n first last; do
  case "$first" in next) word=NEXT ;; *) word=$(echo "${last:-$first}" | tr a-z A-Z) ;; esac
  says "    LAGOON_AT_$word = $n"
done < target/positions

# the version, everywhere
IFS=. read -r major minor patch < VERSION
version=$((major * 1000000 + minor * 1000 + patch))
says "#define LAGOON_VERSION \"$(cat VERSION)\""
says "#define LAGOON_VERSION_NUMBER $version"
grep -q "^Version $(cat VERSION);" README.md || { echo "README.md does not name version $(cat VERSION)"; exit 1; }
grep -q "^Version $(cat VERSION), " docs/ARITHMETIC.md || { echo "docs/ARITHMETIC.md does not name version $(cat VERSION)"; exit 1; }
grep -q "^## $(cat VERSION), " CHANGES.md || { echo "CHANGES.md has no version $(cat VERSION)"; exit 1; }

out=target/host
mkdir -p $out
tools/lib.sh
lib=target/lib/liblagoon.a
strict="-Wall -Wextra -Werror -pedantic -O2 -g -Iinclude -Iexamples"
guarded="-fsanitize=address,undefined -fno-sanitize-recover=all"
export strict guarded lib out

# what the header declares the archive defines, and nothing else; and it asks for memset and memcpy alone
python3 reference/header.py | cut -d' ' -f1 | sort > $out/declared
nm -g --defined-only $lib | awk 'NF == 3 {print $3}' | sort | diff $out/declared - || { echo "the header (<) and $lib (>) have other calls"; exit 1; }
asked=$(nm -g --undefined-only $lib | awk 'NF == 2 {print $2}' | sort -u | grep -vxFf $out/declared | paste -sd ' ')
[ "$asked" = "memcpy memset" ] || { echo "$lib asks for $asked"; exit 1; }
said=$(python3 -c 'import ctypes, sys; call = ctypes.CDLL(sys.argv[1]).lagoon_version; call.restype = ctypes.c_uint64; print(call())' target/lib/liblagoon.so)
[ "$said" = "$version" ] || { echo "lagoon_version() is $said, VERSION $(cat VERSION)"; exit 1; }

# each header alone, as C and as C++
for header in lagoon.h lagoon_records.h; do
  for standard in c99 c11 c17; do echo "#include \"$header\"" | gcc -std=$standard $strict -fsyntax-only -xc -; done
  for standard in c++11 c++20; do echo "#include \"$header\"" | g++ -std=$standard $strict -fsyntax-only -xc++ -; done
done

# each example, as C and as C++, under the sanitizers; what it prints is stored
example() { # NAME
  g++ -std=c++20 $strict -xc++ -fsyntax-only "examples/$1.c"
  gcc -std=c99 $strict $guarded "examples/$1.c" $lib -o "$out/$1"
  [ "$1" = session ] || "$out/$1" | diff "tests/examples/$1.out" - || { echo "examples/$1.c prints something else"; return 1; }
}
export -f example
(cd examples && printf '%s\n' *.c) | sed 's/\.c$//' | xargs -P 2 -I NAME bash -c 'set -euo pipefail; example NAME'
gcc -std=c11 $strict examples/host.c $lib -o $out/host_plain
if command -v valgrind >/dev/null; then
  valgrind -q --error-exitcode=1 $out/host_plain | diff tests/examples/host.out -
else
  echo "no valgrind here: the library's own accesses are watched by the guard pages of tests/compare.sh alone"
fi
python3 examples/host.py target/lib/liblagoon.so | diff tests/examples/host_py.out -

# a host in C prints the run's lines, and its last field starts the next session
for input in tests/sessions/*.in; do
  $out/session $out/last.bin < "$input" 2>$out/budget | cmp - "tests/sessions/$(basename "$input" .in).out"
done
budget() { # SENTENCE: what the host said of the session's budget
  grep -qx "budget: $1" $out/budget || { echo "the host's budget is not '$1':"; cat $out/budget; exit 1; }
}
$out/session < tests/sessions/outfalls.in 2>$out/budget >/dev/null
budget 'first total 100000 + in 250000 + released 60000 - out 94000 = 316000, last total 316000'
$out/session $out/last.bin < tests/sessions/channel.in 2>$out/budget >/dev/null
budget 'first total 100000 + in 100000 + released 0 - out 0 = 200000, last total 200000'
head -c 31 tests/sessions/channel.in > $out/mesh.bin
cat $out/mesh.bin $out/last.bin | $out/session 2>/dev/null | head -n 1 | grep -qx '0 0 0 200000 0'

# eight threads at once find what one alone finds
gcc -std=c11 $strict tests/threads.c $lib -lpthread -o $out/threads
$out/threads

# the stack and the size that the header names are enough: what the largest calls take, and the bytes of code and figures
gcc -std=c11 $strict tests/stack.c $lib -lpthread -o $out/stack
$out/stack > $out/taken
most=$(sort -n $out/taken | tail -n 1)
kibibytes=$(sed -n 's/^#define LAGOON_STACK_BYTES (\([0-9]*\) \* 1024)$/\1/p' include/lagoon.h)
[ "${most%% *}" -lt $((kibibytes * 1024 - 32768)) ] || { echo "a call takes $most bytes of stack, the header names $kibibytes KiB"; exit 1; }
(ulimit -s "$kibibytes"; $out/host_plain) | diff tests/examples/host.out -
held=$(size -t $lib | awk 'END {print $4}')
named=$(sed -n 's/^ \* else, has \([0-9]*\) KiB .*/\1/p' include/lagoon.h)
[ "$held" -le $((named * 1024)) ] || { echo "$lib has $held bytes, the header names $named KiB"; exit 1; }
echo "host: $(wc -l < $out/declared) calls, as declared; examples as stored; $held bytes of code and figures; most stack: ${most#* }, ${most%% *} bytes"
