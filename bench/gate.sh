#!/usr/bin/env bash
# The processor minutes of a whole gate by crate: proofs, tests, must-fail edits, and what builds and runs programs. Runs
# `rt ci` with the words that are given (--anew proves and tries all, also what an earlier run on this machine has kept), reads
# the times of its processes twice a second, and prints a table and the last line of the gate. What a process did in its
# last half second isn't seen.
cd "$(dirname "$0")/.." || exit 1
log=$(mktemp)
trap 'rm -f "$log"' EXIT
rt ci "$@" > "$log" 2>&1 &
python3 bench/gate.py $! "$log"
wait $!
