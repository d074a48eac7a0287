#!/usr/bin/env bash
# The session of one question: the groups, the question, its grants, a run and a report.
# Usage: session.sh GROUPS QUESTIONS PLACE. A line of QUESTIONS is `QUESTION | PROCEDURE UNITS, PROCEDURE UNITS ..`.
set -eu
cat "$1"
sed -n "${3}p" "$2" | awk -F' *[|] *' -v place="$3" '{
    count = split($2, grants, / *, */)
    total = 0
    for (i = 1; i <= count; i++) { split(grants[i], parts, " "); total += parts[2] }
    printf "ask q%d : %s\nfund %d\n", place, $1, total
    for (i = 1; i <= count; i++) printf "grant q%d %s\n", place, grants[i]
    print "run\nreport"
}'
