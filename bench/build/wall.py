"""Times programs that use several threads: the time on the clock, and the most memory that each held.

    wall.py ROUNDS PROGRAM.. -- PROGRAM.. [-- PROGRAM..]

Each round runs every program once, so that a change of the machine's load meets them all alike. Prints for each program
its least time in milliseconds and its peak of resident memory in MB, one a line, and ends with status 1 where their
outputs differ.
"""
import os
import subprocess
import sys
import time


def run(words):
    """The seconds that the program takes, the kilobytes that it held at most, and what it writes."""
    start = time.monotonic()
    program = subprocess.Popen(words, stdout=subprocess.PIPE)
    output = program.stdout.read()
    _, status, usage = os.wait4(program.pid, 0)
    program.returncode = os.waitstatus_to_exitcode(status)
    if program.returncode != 0:
        sys.exit(f"a program failed: {words}")
    return time.monotonic() - start, usage.ru_maxrss, output


def split(words):
    """The programs with their arguments, which `--` divides."""
    programs = [[]]
    for word in words:
        if word == "--":
            programs.append([])
        else:
            programs[-1].append(word)
    return programs


rounds, programs = int(sys.argv[1]), split(sys.argv[2:])
least = [float("inf")] * len(programs)
most = [0] * len(programs)
for _ in range(rounds):
    outputs = []
    for place, words in enumerate(programs):
        taken, held, output = run(words)
        least[place] = min(least[place], taken)
        most[place] = max(most[place], held)
        outputs.append(output)
    if any(output != outputs[0] for output in outputs):
        sys.exit(f"the outputs of the programs differ: {programs}")
for taken, held in zip(least, most):
    print(round(taken * 1e3), round(held / 1024))
