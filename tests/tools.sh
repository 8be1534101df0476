#!/usr/bin/env bash
# The command lagoon beside the engine: records as text and back, what is refused in words, runs, budgets, whole fluxes, pictures, the pages for the
# binder, the page from a survey to a session, sessions in another numbering, another model's claims judged,
# sessions cut in two, ports charged, what the public reads where cells are withheld, the Python package with docs/PYTHON.md, and what
# two opposite faces mix; maps and tables, README's commands, and every command on bad input; and the tool that proves a crate with those under it.
set -eu
cd "$(dirname "$0")/.."
reference/build.sh
printf '%s\n' records run budget fluxes plot map export survey binder renumber judge cut charge public package mixing readme fuzz prove |
  xargs -P 2 -I NAME python3 tests/test_NAME.py
