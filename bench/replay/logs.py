"""Writes the logs of the benchmark into a folder: counts.log, puts.log, mixed.log, busy.log and
beside.log."""
import random
import sys

folder = sys.argv[1]
LIMIT = 200_000


def write(name, lines):
    with open(f"{folder}/{name}", "w") as file:
        file.write("".join(line + "\n" for line in lines))


# As many count lines as the limit on lines allows.
write("counts.log", ["0 count node 0"] * LIMIT)

# One more put than a history takes.
write("puts.log", ["0 put 0 box 0 0 0 0"] * 65_537)


def mixed(seed, lines, slots):
    chance = random.Random(seed)
    for _ in range(lines):
        kind = chance.random()
        slot = chance.randrange(slots)
        if kind < 0.25:
            x, y = chance.randrange(-300, 300), chance.randrange(-300, 300)
            yield f"0 put {slot} box {x} {y} {x + chance.randrange(64)} {y + chance.randrange(64)}"
        elif kind < 0.40:
            yield f"0 del {slot}"
        elif kind < 0.70:
            yield f"0 count node {chance.randrange(5)}"
        else:
            yield f"0 count edge {chance.randrange(4)}"


# Few obstacles, and many.
write("mixed.log", mixed(1, 200_000, 8))
write("busy.log", mixed(2, 200_000, 1_024))

# A box beside the grid in each slot, and counts that look at all of them: the most that a count can cost.
puts = [f"0 put {slot} box 1000 1000 1001 1001" for slot in range(1_024)]
write("beside.log", puts + ["0 count edge 0"] * 60_000)
