#!/usr/bin/env bash
# The run program where something is lost, and what it says to whoever gives arguments or sits at a terminal.
exec python3 "$(dirname "$0")/lost.py"
