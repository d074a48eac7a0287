#!/usr/bin/env bash
# Runs the program over each example that has its output beside it, and says which differ; 1 where one does.
# The program is crates/magnus/out/magnus, which `rt ci` builds.
cd "$(dirname "$0")" || exit 1
differ=0
for expected in *.out; do
    script=${expected%.out}.magnus
    if ! ../crates/magnus/out/magnus run --workers 1 < "$script" | cmp -s - "$expected"; then
        echo "$script differs"
        differ=1
    fi
done
exit $differ
