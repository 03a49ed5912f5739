"""Compares the asks of two programs: their answers, and the time of each ask.

    times.py ROUNDS PROGRAM PLAIN ROBOT BOXES ASKS

Each program prints for each ask the nanoseconds that it took and its answer. They run in turns, and of each ask the least
time counts. Ends with status 1 where an answer differs.
"""
import subprocess
import sys


def asks(program, words):
    """The times and the answers that the program prints."""
    lines = subprocess.run([program, *words], stdout=subprocess.PIPE, check=True, text=True).stdout.splitlines()
    parts = [line.split(" ", 1) for line in lines]
    return [int(time) for time, _ in parts], [answer for _, answer in parts]


def at(times, share):
    """The time, in milliseconds, below which that share of the asks lies."""
    return sorted(times)[min(int(len(times) * share), len(times) - 1)] / 1e6


rounds, words = int(sys.argv[1]), sys.argv[4:]
least, answers = [None, None], None
for _ in range(rounds):
    for place, program in enumerate(sys.argv[2:4]):
        times, told = asks(program, words)
        if answers is not None and told != answers:
            sys.exit(f"the answers differ: robot, boxes, asks {words}")
        answers = told
        least[place] = times if least[place] is None else [min(pair) for pair in zip(least[place], times)]
kinds = {kind: sum(answer.startswith(kind) for answer in answers) for kind in ("path", "cut", "nostart", "nogoal", "unsound")}
shares = (0.5, 0.95, 1.0)
proved, plain = ([at(times, share) for share in shares] for times in least)
print(f"robot {words[0]}, {words[1]} boxes: median, 95th, greatest " + ", ".join(f"{time:.3f}" for time in proved) + " ms; plain "
      + ", ".join(f"{time:.3f}" for time in plain) + " ms; ratios "
      + ", ".join(f"{a / b:.4f}" for a, b in zip(proved, plain))
      + "; answers " + ", ".join(f"{count} {kind}" for kind, count in kinds.items() if count))
