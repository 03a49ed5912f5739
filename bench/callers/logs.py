"""Writes logs for the benchmark of many callers: NAME.many has the lines of eight callers in turn, NAME.one the same lines
of caller 0 alone. In `counts` 99 lines of a hundred are counts, in `edits` nine of ten put or delete, and in `asks` all but
the first forty, which are edits, ask for a way between configurations of three joints: so what stands when they are answered
depends little on the schedule. Each caller has four slots."""
import random
import sys

LINES = 200_000
ASKS = 4_000
folder = sys.argv[1]


def box(draw):
    x, y = draw.randrange(300, 700), draw.randrange(300, 700)
    return f"box {x} {y} {x + 40} {y + 40}"


def edit(draw, caller):
    slot = caller * 4 + draw.randrange(4)
    return f"del {slot}" if draw.randrange(4) == 0 else f"put {slot} {box(draw)}"


def count(draw):
    return f"count node {draw.randrange(150)}"


def ask(draw):
    ends = [str(draw.randrange(-1024, 1025)) for _ in range(6)]
    return "ask " + " ".join(ends)


def line(name, draw, place):
    caller = place % 8
    if name == "counts":
        return edit(draw, caller) if draw.randrange(100) == 0 else count(draw)
    if name == "edits":
        return count(draw) if draw.randrange(10) == 0 else edit(draw, caller)
    return edit(draw, caller) if place < 40 else ask(draw)


# A history holds 65,536 edits: the log of edits is cut where they are all there.
for name, number in (("counts", LINES), ("edits", 70_000), ("asks", ASKS)):
    draw = random.Random(7)
    lines = [(place % 8, line(name, draw, place)) for place in range(number)]
    with open(f"{folder}/{name}.many", "w") as many, open(f"{folder}/{name}.one", "w") as one:
        many.writelines(f"{caller} {text}\n" for caller, text in lines)
        one.writelines(f"0 {text}\n" for caller, text in lines)
