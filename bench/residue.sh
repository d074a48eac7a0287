#!/usr/bin/env bash
# How many maps to residues the search by `residue` tests in a second of processor time: the median of five runs of the
# proved program, UNITS units each (999,999,999), in turns of 1,024, on groups and words that no such model refutes.
# Those that are passed over together count each. Run `rt ci` first; it leaves the program at
# crates/magnus/out/magnus.
cd "$(dirname "$0")/.." || exit 1
program=crates/magnus/out/magnus
units=${UNITS:-999999999}
[ -x "$program" ] || { echo "no $program: run 'rt ci' or 'rt run' in crates/magnus first" >&2; exit 1; }
TIMEFORMAT=%U

# The milliseconds of processor time.
measure() {
  script=$(printf 'group G = < %s >\nask q : %s = 1 in G\nfund %s\ngrant q residue %s\nrun\nreport\n' "$1" "$2" "$units" "$units")
  for _ in 1 2 3 4 5; do
    { time printf '%s\n' "$script" | "$program" run --workers 1 > /dev/null; } 2>&1 | tr -d .
  done | sort -n | sed -n 3p | sed 's/^0*\(.\)/\1/'
}

for case in 'a, b | a b; a b' 'a, b | a b a^-1 b^-1; a b a^-1 b^-1' 'a, b, c | a^6, b^10, c^15; b^10'; do
  group=${case%; *} word=${case#*; }
  millis=$(measure "$group" "$word")
  echo "< $group >, $word = 1: $units maps in $millis milliseconds, $(( units / 1000 / (millis > 0 ? millis : 1) )) million a second"
done
