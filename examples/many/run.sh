#!/usr/bin/env bash
# One session for each question, so many at a time, and their reports in the order of the questions.
# Usage: run.sh GROUPS QUESTIONS AT_A_TIME. The program is crates/magnus/out/magnus, which `rt ci` builds.
set -eu
here=$(cd "$(dirname "$0")" && pwd)
program=$here/../../crates/magnus/out/magnus
reports=$(mktemp -d)
trap 'rm -r "$reports"' EXIT
export here program reports
seq "$(wc -l < "$2")" | xargs -P "$3" -I{} \
    sh -c '"$here/session.sh" "$0" "$1" {} | "$program" run > "$reports/{}"' "$1" "$2"
for place in $(seq "$(wc -l < "$2")"); do
    cat "$reports/$place"
done
