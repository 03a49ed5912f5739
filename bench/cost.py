"""Times programs against each other: the processor time of each (user and system), run in turns.

    cost.py ROUNDS INPUT PROGRAM.. -- PROGRAM.. [-- PROGRAM..]

Each round runs every program once on the input, so that a change of the machine's load meets them all alike. Prints
the least time of each program in microseconds, one a line, and ends with status 1 where their outputs differ.
"""
import resource
import subprocess
import sys


def cost(words, path):
    """The processor time that the program takes, in seconds, and what it writes."""
    before = resource.getrusage(resource.RUSAGE_CHILDREN)
    with open(path, "rb") as source:
        output = subprocess.run(words, stdin=source, stdout=subprocess.PIPE, check=True).stdout
    after = resource.getrusage(resource.RUSAGE_CHILDREN)
    return after.ru_utime + after.ru_stime - before.ru_utime - before.ru_stime, output


def split(words):
    """The programs with their arguments, which `--` divides."""
    programs = [[]]
    for word in words:
        if word == "--":
            programs.append([])
        else:
            programs[-1].append(word)
    return programs


rounds, path, programs = int(sys.argv[1]), sys.argv[2], split(sys.argv[3:])
least = [float("inf")] * len(programs)
for _ in range(rounds):
    outputs = []
    for place, words in enumerate(programs):
        taken, output = cost(words, path)
        least[place] = min(least[place], taken)
        outputs.append(output)
    if any(output != outputs[0] for output in outputs):
        sys.exit(f"the outputs of the programs differ: {programs}")
for taken in least:
    print(round(taken * 1e6))
