#!/usr/bin/env bash
# soak.sh SECONDS SEED: the engine against the reference, one seed after another from SEED on, for so many seconds.
# On a mismatch the case, and the smallest one found that still differs, are kept in target/mismatch/ and the exit status is 1.
set -eu
[ $# -eq 2 ] || { sed -n '2,3s/^# //p' "$0"; exit 2; }
cd "$(dirname "$0")/.."
reference/build.sh
echo "soak of $1 seconds from seed $2 on"
exec python3 reference/compare.py --run target/compare/run --script target/compare/calls \
  --call target/compare/call_sanitized --call target/compare/call_guarded --library target/compare/calls_guarded \
  --soak "$1" --seed "$2"
