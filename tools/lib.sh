#!/usr/bin/env bash
# Proves the calls from C and writes target/lib/liblagoon.a and liblagoon.so. What the prover says is in target/lagoon_c.log.
set -eu
[ "${1:-}" != --help ] || { sed -n '2s/^# //p' "$0"; exit 0; }
cd "$(dirname "$0")/.."
out=target/lib

# the crate lagoon_c exports the calls of all libraries, so its archive is the library
tools/prove.py lagoon_c
if ! cmp -s $out/liblagoon_c.a $out/liblagoon.a; then
  cp $out/liblagoon_c.a $out/liblagoon.a
  rm -f $out/liblagoon.so*
fi
# the name that a program looks for when it starts has the version's first number, which changes where a figure does
if [ ! -e $out/liblagoon.so ]; then
  name=liblagoon.so.$(cut -d. -f1 VERSION)
  gcc -shared -o $out/liblagoon.so -Wl,-soname,$name -Wl,--whole-archive $out/liblagoon.a -Wl,--no-whole-archive
  ln -sf liblagoon.so $out/$name
fi
