#!/usr/bin/env bash
# How many overlaps a second the program takes in a completion, in processor time with the reading of the script and the
# printing of the answer: the median of five runs each. YARDSTICK, where it is set, is a program to compare with: it is given a
# file with the lines `gens N`, `rels N`, `sub 0` and `goals 1`, behind `rels` and `goals` a line for each word with its length
# and its letters as numbers, the most units, and the word `magnus`; it prints its units behind the word `units` and its seconds
# behind the word `seconds`. RUN is put before each run. The program is crates/magnus/out/magnus, which `rt ci` builds.
cd "$(dirname "$0")/.." || exit 1
python3 - "$PWD/crates/magnus/out/magnus" "${YARDSTICK:-}" ${RUN:-} <<'PYTHON'
import os
import re
import resource
import statistics
import subprocess
import sys
import tempfile

program, yardstick, run = sys.argv[1], sys.argv[2], sys.argv[3:]
MOST = 1000000


def times(word, count):
    return " ".join([word] * count)


def coxeter(orders):
    names = [chr(97 + i) for i in range(len(orders) + 1)]
    relators = [f"{x}^2" for x in names]
    for i in range(len(names)):
        for j in range(i + 1, len(names)):
            relators.append(times(f"{names[i]} {names[j]}", orders[i] if j == i + 1 else 2))
    return " ".join(names), relators


WORK = [
    ("the Coxeter group of type B5", *coxeter([4, 3, 3, 3]), "a"),
    ("the Coxeter group of type F4", *coxeter([3, 4, 3]), "a"),
    ("< a, b | a b a^-1 b^-3 >", "a b", ["a b a^-1 b^-3"], "a"),
    ("< a, b, c | [a, b] c^-2, [a, c], [b, c] >", "a b c",
     ["a^-1 b^-1 a b c^-2", "a^-1 c^-1 a c", "b^-1 c^-1 b c"], "a"),
]


def numbers(word, names):
    out = []
    for piece in word.split():
        name, _, power = piece.partition("^")
        count = int(power or 1)
        out += [(names.index(name) + 1) * (1 if count > 0 else -1)] * abs(count)
    return f"{len(out)} " + " ".join(map(str, out))


def measured(command, stdin):
    before = resource.getrusage(resource.RUSAGE_CHILDREN).ru_utime
    done = subprocess.run(command, input=stdin, capture_output=True, text=True)
    return done.stdout, resource.getrusage(resource.RUSAGE_CHILDREN).ru_utime - before


with tempfile.TemporaryDirectory() as work:
    for title, generators, relators, goal in WORK:
        names = generators.split()
        script = "\n".join([
            f"group G = < {', '.join(names)} | {', '.join(relators)} >", f"ask q : {goal} = 1 in G", f"fund {MOST}",
            f"grant q rewrite {MOST}", "run", "report", ""])
        taken = []
        for _ in range(5):
            text, seconds = measured([*run, program, "run"], script)
            taken.append(seconds)
        units = int(re.search(r"spent (\d+)", text).group(1))
        end = re.search(r"returned \d+ end (.*)", text).group(1)
        seconds = statistics.median(taken)
        line = f"{title}: {units} units, {end}, {seconds:.3f} s, {units / seconds:,.0f} units a second"
        if yardstick:
            path = os.path.join(work, "ask")
            with open(path, "w") as file:
                file.write("\n".join([
                    f"gens {len(names)}", f"rels {len(relators)}", *(numbers(w, names) for w in relators), "sub 0", "goals 1",
                    numbers(goal, names), ""]))
            other = []
            for _ in range(5):
                told, _ = measured([*run, yardstick, path, str(MOST), "magnus"], "")
                other.append(float(re.search(r"seconds (\S+)", told).group(1)))
            made = int(re.search(r"units (\d+)", told).group(1))
            line += f"; the yardstick {made} units, {made / statistics.median(other):,.0f} units a second"
        print(line, flush=True)
PYTHON
