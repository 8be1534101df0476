#!/usr/bin/env bash
# Proves and builds what the comparison runs, into target/compare/:
#   run, calls       the run program, and the program of all calls
#   call_sanitized   call_driver.c with the engine's library, the driver under AddressSanitizer
#   call_guarded     the same without it, each buffer ending at a page that nobody may touch
#   calls_guarded    calls_driver.c, which makes every call of the header, its tables ending at such pages too
set -eu
[ "${1:-}" != --help ] || { sed -n '2,6s/^# \{0,1\}//p' "$0"; exit 0; }
cd "$(dirname "$0")/.."
out=target/compare
library=target/lib/liblagoon.a
mkdir -p $out
tools/prove.py run calls
tools/lib.sh
cp target/bin/run target/bin/calls $out/
driver="gcc -std=c11 -Wall -Wextra -Werror -g -O1 reference/call_driver.c"
$driver -fsanitize=address,undefined $library -o $out/call_sanitized
$driver -DGUARD_PAGES $library -o $out/call_guarded
python3 reference/header.py --driver > $out/made.h
gcc -std=c11 -Wall -Wextra -Werror -g -O1 -I$out reference/calls_driver.c $library -o $out/calls_guarded
