"""Prints the least clock time in milliseconds of ROUNDS runs of a command that reads the log, on the first processors of
the machine, as many as told: for the log of one caller on one processor, and for that of eight on one, two and four."""
import os
import subprocess
import sys
import time

rounds, folder, name, *command = int(sys.argv[1]), *sys.argv[2:]
allowed = sorted(os.sched_getaffinity(0))


def least(log, processors):
    best = None
    for _ in range(rounds):
        with open(f"{folder}/{name}.{log}") as lines:
            begun = time.perf_counter()
            subprocess.run(
                command, stdin=lines, stdout=subprocess.DEVNULL, check=True,
                preexec_fn=lambda: os.sched_setaffinity(0, allowed[:processors]),
            )
            spent = time.perf_counter() - begun
        best = spent if best is None else min(best, spent)
    return best * 1000


alone = least("one", 1)
many = [least("many", processors) for processors in (1, 2, 4)]
lines = sum(1 for _ in open(f"{folder}/{name}.one"))
print(f"{name:8} {lines:8} {alone:10.1f} " + " ".join(f"{spent:10.1f}" for spent in many) + f" {many[0] / many[2]:8.2f}")
