#!/usr/bin/env python3
"""How much longer one command takes than another, in seconds of processor time, the kernel's counted in.

usage: pairs.py PAIRS FILE COMMAND.. -- FILE COMMAND..

Both commands read their files, by turns and on the same processor, so many times. The two runs of a pair stand right
behind one another and so meet the machine alike, though its speed changes in the meantime. Prints the least seconds of
each command, and the quartiles of the ratios of the pairs.
"""
import os
import statistics
import sys


def seconds(file, command):
    """What one run takes, in seconds."""
    source = os.open(file, os.O_RDONLY)
    sink = os.open(os.devnull, os.O_WRONLY)
    actions = [(os.POSIX_SPAWN_DUP2, source, 0), (os.POSIX_SPAWN_DUP2, sink, 1)]
    child = os.posix_spawn(command[0], command, os.environ, file_actions=actions)
    _, status, usage = os.wait4(child, 0)
    os.close(source)
    os.close(sink)
    if status != 0:
        sys.exit(f"failed: {' '.join(command)}")
    return usage.ru_utime + usage.ru_stime


def main():
    pairs, words = int(sys.argv[1]), sys.argv[2:]
    behind = words.index("--")
    (file, *command), (other_file, *other) = words[:behind], words[behind + 1:]
    os.sched_setaffinity(0, {max(os.sched_getaffinity(0))})
    taken = [(seconds(file, command), seconds(other_file, other)) for _ in range(pairs)]
    ratios = statistics.quantiles((one / two for one, two in taken), n=4)
    print(*(f"{min(times):.6f}" for times in zip(*taken)), *(f"{ratio:.4f}" for ratio in ratios))


main()
