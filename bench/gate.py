"""Samples the processes of a gate while it runs, and prints the processor minutes of each crate.

gate.py PID LOG: PID is the process of `rt ci`, LOG the file that it writes to."""
import os
import sys
import time

TICK = os.sysconf("SC_CLK_TCK")
KINDS = ("proofs", "tests", "edits", "programs")


def read(path):
    try:
        with open(path, "rb") as file:
            return file.read().decode(errors="replace")
    except OSError:
        return ""


def children(root):
    """The processes below a process."""
    parents = {}
    for pid in filter(str.isdigit, os.listdir("/proc")):
        fields = read(f"/proc/{pid}/stat").rpartition(")")[2].split()
        if len(fields) > 13:
            parents[int(pid)] = (int(fields[1]), int(fields[11]) + int(fields[12]), fields[19])
    below, found = {root}, True
    while found:
        found = {pid for pid, (parent, _, _) in parents.items() if parent in below} - below
        below |= found
    return {pid: parents[pid] for pid in below - {root} if pid in parents}


def kind_of(pid, words):
    where = os.readlink(f"/proc/{pid}/cwd")
    if "rt-edit" in where:
        return "edits"
    if "--test" in words:
        return "tests"
    return "proofs"


def sampled(root):
    """The greatest times seen of each process, by crate and kind, until the process `root` has ended."""
    seen = {}
    while os.path.exists(f"/proc/{root}") and " Z " not in read(f"/proc/{root}/stat"):
        for pid, (_, ticks, start) in children(root).items():
            words = read(f"/proc/{pid}/cmdline").split("\0")
            try:
                if "--crate-name" in words:
                    crate, kind = words[words.index("--crate-name") + 1], kind_of(pid, words)
                elif (pid, start) in seen:
                    crate, kind = seen[pid, start][:2]
                else:
                    crate, kind = "others", "programs"
            except (OSError, IndexError):
                continue
            seen[pid, start] = (crate, kind, ticks)
        time.sleep(0.5)
    return seen


def main():
    root, log = int(sys.argv[1]), sys.argv[2]
    minutes = {}
    for crate, kind, ticks in sampled(root).values():
        row = minutes.setdefault(crate, dict.fromkeys(KINDS, 0.0))
        row[kind] += ticks / TICK / 60
    print("| crate | " + " | ".join(KINDS) + " | all |")
    print("|---" * (len(KINDS) + 2) + "|")
    for crate, row in sorted(minutes.items(), key=lambda it: -sum(it[1].values())):
        print(f"| {crate} | " + " | ".join(f"{row[kind]:.1f}" for kind in KINDS) + f" | {sum(row.values()):.1f} |")
    whole = {kind: sum(row[kind] for row in minutes.values()) for kind in KINDS}
    print("| whole | " + " | ".join(f"{whole[kind]:.1f}" for kind in KINDS) + f" | {sum(whole.values()):.1f} |")
    print(read(log).rstrip("\n").rpartition("\n")[2])


main()
