"""Tells how much several processors can give: the clock time of a program alone on each processor in turn, and that of one copy
on each at once.

    side.py ROUNDS PROCESSORS PROGRAM..

Prints the least mean of the times alone and the least time at once, in milliseconds. Processors that share a core, or a
machine that others use, make the second longer than the first.
"""
import subprocess
import sys
import time


def together(processors, words):
    """The milliseconds until copies of the program, one on each of these processors, have ended."""
    start = time.monotonic()
    copies = [subprocess.Popen(["taskset", "-c", str(at), *words], stdout=subprocess.DEVNULL) for at in processors]
    if any(copy.wait() != 0 for copy in copies):
        sys.exit(f"a program failed: {words}")
    return (time.monotonic() - start) * 1e3


rounds, count, words = int(sys.argv[1]), int(sys.argv[2]), sys.argv[3:]
alone = at_once = float("inf")
for _ in range(rounds):
    alone = min(alone, sum(together([at], words) for at in range(count)) / count)
    at_once = min(at_once, together(range(count), words))
print(round(alone), round(at_once))
