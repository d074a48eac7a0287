#!/usr/bin/env bash
# How many rows a second the program makes of a coset table, in processor time with the reading of the script and the printing
# of the answer, and how many rows it made: the median of five runs each. YARDSTICK, where it is set, is a program to compare
# with: it is given a file with the lines `gens N`, `rels N`, `sub N` and `goals N`, behind each of the last three a line for
# each word with its length and its letters as numbers, and the most entries; it prints its rows behind the word `rows` and
# its seconds behind the word `seconds`. RUN is put before each run. The program is crates/magnus/out/magnus, which `rt ci`
# builds.
cd "$(dirname "$0")/.." || exit 1
python3 - "$PWD/crates/magnus/out/magnus" "${YARDSTICK:-}" ${RUN:-} <<'PYTHON'
import os
import re
import resource
import statistics
import subprocess
import sys
import tempfile

program, yardstick, run = sys.argv[1], sys.argv[2], sys.argv[3:]
COMMUTATOR = "a b a^-1 b^-1"


def times(word, count):
    return " ".join([word] * count)


def coxeter(size):
    names = [chr(97 + i) for i in range(size)]
    relators = [f"{x}^2" for x in names]
    for i in range(size):
        for j in range(i + 1, size):
            order = 4 if (i, j) == (0, 1) else 3 if j == i + 1 else 2
            relators.append(times(f"{names[i]} {names[j]}", order))
    return " ".join(names), relators


T, U = "a b a b^-1", "a b^-1"
WORK = [
    ("< r, s | r^8, s^7, (r s)^2, (r^-1 s)^3 >", "r s", ["r^8", "s^7", times("r s", 2), times("r^-1 s", 3)], "1", "r"),
    ("< a, b | a^2, b^3, (a b)^9, [a, b]^5 >", "a b", ["a^2", "b^3", times("a b", 9), times(COMMUTATOR, 5)], "1", "a"),
    ("the Coxeter group of type B6", *coxeter(6), "1", "a"),
    ("Janko's first group over a b", "a b", ["a^2", "b^3", times("a b", 7), times("a b " + times(T, 3), 5),
     times("a b " + times(T, 6) + " a b a b " + times(U, 2), 2)], "a b", "a"),
    ("< a, b | a^2, b^4, (a b)^5, [a, b]^5 >", "a b", ["a^2", "b^4", times("a b", 5), times(COMMUTATOR, 5)], "1", "a"),
]


def numbers(word, names):
    out = []
    for piece in word.split():
        if piece == "1":
            continue
        name, _, power = piece.partition("^")
        count = int(power or 1)
        out += [(names.index(name) + 1) * (1 if count > 0 else -1)] * abs(count)
    return f"{len(out)} " + " ".join(map(str, out))


def measured(command, stdin):
    before = resource.getrusage(resource.RUSAGE_CHILDREN).ru_utime
    done = subprocess.run(command, input=stdin, capture_output=True, text=True)
    return done.stdout, resource.getrusage(resource.RUSAGE_CHILDREN).ru_utime - before


with tempfile.TemporaryDirectory() as work:
    for title, generators, relators, member, goal in WORK:
        names = generators.split()
        script = "\n".join([
            f"group G = < {', '.join(names)} | {', '.join(relators)} >", f"subgroup H of G = < {'' if member == '1' else member} >",
            f"ask q : {goal} in H", "fund 2000000", "grant q cosets 2000000", "run", "report", ""])
        taken = []
        for _ in range(5):
            text, seconds = measured([*run, program, "run", "--workers", "1"], script)
            taken.append(seconds)
        rows = int(re.search(r"spent (\d+)", text).group(1))
        end = re.search(r"end (.*)", text).group(1)
        seconds = statistics.median(taken)
        line = f"{title}: {rows} rows, {end}, {seconds:.3f} s, {rows / seconds:,.0f} rows a second"
        if yardstick:
            path = os.path.join(work, "ask")
            with open(path, "w") as file:
                lines = [f"gens {len(names)}", f"rels {len(relators)}", *(numbers(w, names) for w in relators)]
                subgroup = [] if member == "1" else [member]
                lines += [f"sub {len(subgroup)}", *(numbers(w, names) for w in subgroup), "goals 1", numbers(goal, names), ""]
                file.write("\n".join(lines))
            other = []
            for _ in range(5):
                told, _ = measured([*run, yardstick, path, "4000000"], "")
                other.append(float(re.search(r"seconds (\S+)", told).group(1)))
            made = int(re.search(r"rows (\d+)", told).group(1))
            line += f"; the yardstick {made} rows, {made / statistics.median(other):,.0f} rows a second"
        print(line, flush=True)
PYTHON
