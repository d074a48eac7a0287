#!/usr/bin/env bash
# How many texts the derivation search tests in a second of processor time: the median of five runs of the
# proved program, 999,999,999 units each, on three groups in which nothing is found. Texts that are passed
# over together count each. Run `rt ci` first; it leaves the program at crates/magnus/out/magnus.
cd "$(dirname "$0")/.." || exit 1
program=crates/magnus/out/magnus
units=${UNITS:-999999999}
[ -x "$program" ] || { echo "no $program: run 'rt ci' or 'rt run' in crates/magnus first" >&2; exit 1; }
TIMEFORMAT=%U

# The milliseconds of processor time.
measure() {
  script=$(printf 'group G = < %s >\nask q : a = 1 in G\nfund %s\ngrant q derive %s\nrun\nreport\n' "$1" "$units" "$units")
  for _ in 1 2 3 4 5; do
    { time printf '%s\n' "$script" | "$program" run --workers 1 > /dev/null; } 2>&1 | tr -d .
  done | sort -n | sed -n 3p | sed 's/^0*\(.\)/\1/'
}

six='a, b, c, d, e, f | a^2, b^2, c^2, d^2, e^2, f^2, a b a^-1 b^-1, b c b^-1 c^-1, c d c^-1 d^-1, a c a c a c'
for group in 'a | a^2' 'a, b | a^2, b^3, a b a b' "$six"; do
  millis=$(measure "$group")
  echo "< $group >, a = 1: $units texts in $millis milliseconds, $(( units / 1000 / (millis > 0 ? millis : 1) )) million a second"
done
