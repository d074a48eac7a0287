#!/usr/bin/env bash
# How many actions the search by finite actions tests in a second of processor time: the median of five runs of
# the proved program, 999,999,999 units each, on two Asks that no action up to there refutes. Actions that are
# passed over together count each. Run `rt ci` first; it leaves the program at crates/magnus/out/magnus.
cd "$(dirname "$0")/.." || exit 1
program=crates/magnus/out/magnus
units=${UNITS:-999999999}
[ -x "$program" ] || { echo "no $program: run 'rt ci' or 'rt run' in crates/magnus first" >&2; exit 1; }
TIMEFORMAT=%U

# The milliseconds of processor time for a group and a goal.
measure() {
  script=$(printf 'group G = < %s >\nask q : %s = 1 in G\nfund %s\ngrant q act %s\nrun\nreport\n' "$1" "$2" "$units" "$units")
  printf '%s\n' "$script" | "$program" run --workers 1 | grep -q " spent $units " || { echo "no search by actions in $program" >&2; exit 1; }
  for _ in 1 2 3 4 5; do
    { time printf '%s\n' "$script" | "$program" run --workers 1 > /dev/null; } 2>&1 | tr -d .
  done | sort -n | sed -n 3p | sed 's/^0*\(.\)/\1/'
}

# Shows one measurement.
show() {
  millis=$(measure "$1" "$2") || exit 1
  echo "< $1 >, $2 = 1: $units actions in $millis milliseconds, $(( units / 1000 / (millis > 0 ? millis : 1) )) million a second"
}

show 'a, b | a^2, b^3, (a b)^7' '(a b)^7'
show 'a, b | a b a^-1 b^-2, b a b^-1 a^-2' 'a'
