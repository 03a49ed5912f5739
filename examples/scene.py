"""Reads maps, logs and full reports, and works out what stands after so many edits: obstacles, footprints, what they bar.

The forms are in docs/FORMATS.md, and what the words mean in docs/SEMANTICS.md. Footprints and counts are exact. Points of the
arm are in floating point, and `sampled_cells` samples a motion; the program itself does neither.
"""
from __future__ import annotations

import math
import struct
from typing import Iterable, Iterator, NamedTuple, Optional

Config = tuple  # of one whole number for each joint
Point = tuple  # x and y


class Fault(Exception):
    """What went wrong, in words, with the status that the program ends with."""

    def __init__(self, text: str, status: int = 2) -> None:
        super().__init__(text)
        self.status = status


# ---- The map ----

class Link(NamedTuple):
    """A link: its length, its radius and the limits of its joint."""
    length: int
    radius: int
    least: int
    greatest: int


class Map(NamedTuple):
    """A roadmap with its stored sweeps: those of the nodes and then those of the edges."""
    links: list
    side: int
    rows: int
    nodes: list
    edges: list
    sweeps: list


SAMPLE = Map([Link(200, 20, -2048, 2048)], 128, 4, [(0,), (1024,), (-1024,), (2048,)], [(0, 1), (0, 2), (1, 3)],
             [(5, 6, 7, 9, 10, 11), (5, 6, 9, 10, 13, 14), (1, 2, 5, 6, 9, 10), (5, 6, 8, 9, 10, 12, 13),
              (5, 6, 7, 9, 10, 11, 13, 14, 15), (1, 2, 3, 5, 6, 7, 9, 10, 11), (5, 6, 8, 9, 10, 12, 13, 14)])


class Fields:
    """The fields of a map file behind its mark, taken from the left."""

    def __init__(self, text: bytes) -> None:
        self.text, self.place = text, 4

    def take(self, size: int, least: int, most: int) -> int:
        """The next number of so many bytes, which has a sign where its least value is below 0."""
        piece = self.text[self.place:self.place + size]
        if len(piece) < size:
            raise Fault(f"map short {len(self.text)}")
        number = int.from_bytes(piece, "big", signed=least < 0)
        if not least <= number <= most:
            raise Fault(f"map field {self.place}")
        self.place += size
        return number

    def cells(self, count: int, cells: int) -> tuple:
        """The next numbers of cells, of a grid of so many."""
        start, self.place = self.place, self.place + 2 * count
        if self.place > len(self.text):
            raise Fault(f"map short {len(self.text)}")
        found = struct.unpack(f">{count}H", self.text[start:self.place])
        if max(found, default=0) >= cells:
            raise Fault(f"map field {start + 2 * next(at for at, cell in enumerate(found) if cell >= cells)}")
        return found


def read_map(text: bytes) -> Map:
    """The map of a file's bytes. Ranges of fields are looked at, and not the order of nodes, edges and cells."""
    if not b"DRMP".startswith(text[:4]):
        raise Fault("map magic")
    fields = Fields(text)
    fields.take(2, 1, 1)
    links = [Link(fields.take(2, 1, 4096), fields.take(2, 0, 512), fields.take(2, -4096, 4096),
                  fields.take(2, -4096, 4096)) for _ in range(fields.take(1, 1, 6))]
    side, rows = fields.take(2, 128, 1024), fields.take(1, 2, 128)
    nodes = [tuple(fields.take(2, -4096, 4096) for _ in links) for _ in range(fields.take(2, 1, 2048))]
    last = len(nodes) - 1
    edges = [(fields.take(2, 0, last), fields.take(2, 0, last)) for _ in range(fields.take(4, 0, 32768))]
    cells = rows * rows
    sweeps = [fields.cells(fields.take(2, 0, cells), cells) for _ in range(len(nodes) + len(edges))]
    if fields.place != len(text):
        raise Fault(f"map excess {fields.place}")
    return Map(links, side, rows, nodes, edges, sweeps)


# ---- Logs and reports ----

REPLIES = {"put": "put slot full memory", "del": "del slot full empty memory", "count": "count absent memory",
           "sync": "sync memory", "ask": "ask limits memory", "tick": "tick memory"}
CORNERS = {"box": [4], "disc": [3], "poly": [6, 8, 10, 12, 14, 16]}


class Shape(NamedTuple):
    """A box, a disc or a polygon with its numbers, as in a log."""
    kind: str
    numbers: list


class End(NamedTuple):
    """How an end of an ask is joined: the node, if any, and the refused nodes, each with the cell that is met, if any."""
    node: Optional[int]
    refused: list


class Answer(NamedTuple):
    """An answer: its kind, the length of the history, both ends, the length and the nodes, and of `unsound` the cell."""
    kind: str
    front: int
    start: Optional[End]
    goal: Optional[End]
    length: int
    nodes: list
    cell: Optional[int] = None


class Words:
    """The words of a line, taken from the left."""

    def __init__(self, line: str) -> None:
        self.left = iter(line.split(" "))

    def word(self) -> str:
        """The next word."""
        word = next(self.left, None)
        if word is None:
            raise ValueError("the line ends early")
        return word

    def number(self) -> int:
        """The next word as a number."""
        return int(self.word())

    def numbers(self) -> list:
        """A number and then so many numbers."""
        return [self.number() for _ in range(self.number())]

    def rest(self) -> list:
        """All numbers that are left."""
        return [int(word) for word in self.left]

    def shape(self) -> Shape:
        """The shape that ends the line."""
        kind, numbers = self.word(), self.rest()
        if len(numbers) not in CORNERS.get(kind, []):
            raise ValueError("no shape")
        return Shape(kind, numbers)

    def items(self) -> list:
        """A number and then so many refused nodes."""
        return [(self.number(), {"b": lambda: None, "c": self.number}[self.word()]()) for _ in range(self.number())]

    def end(self) -> End:
        """How an end is joined."""
        return End(self.number(), self.items())


def read_answer(line: str) -> Answer:
    """The answer that a report's line gives to an ask, in full."""
    words = Words(line)
    words.word()
    front, kind = words.number(), words.word()
    if kind == "nostart":
        answer = Answer(kind, front, End(None, words.items()), None, 0, [])
    elif kind == "nogoal":
        answer = Answer(kind, front, None, End(None, words.items()), 0, [])
    elif kind == "path":
        answer = Answer(kind, front, words.end(), words.end(), words.number(), words.numbers())
        for _ in range(words.number()):
            words.word()
    elif kind == "cut":
        answer = Answer(kind, front, words.end(), words.end(), 0, words.numbers())
    elif kind == "unsound":
        answer = Answer(kind, front, words.end(), words.end(), 0, [words.number()], words.number())
    else:
        raise ValueError("no answer")
    if words.rest():
        raise ValueError("more words")
    return answer


def split_lines(name: str, text: bytes) -> list:
    """The lines of a text, each of which ends with a line feed."""
    lines = text.decode("ascii", "replace").split("\n")
    if lines.pop():
        raise Fault(f"{name}: no line feed at the end")
    return lines


def kind_of(line: str, at: int) -> str:
    """What a line of a log asks for: its second word."""
    words = line.split(" ")
    if len(words) < 2 or words[1] not in REPLIES:
        raise Fault(f"log, line {at}: not in the grammar: {line[:60]}")
    return words[1]


def check_replies(log: list, report: list) -> None:
    """A fault where the report has another number of lines than the log calls for, or a reply of another kind."""
    if len(report) != len(log) + 1 or not report[-1].startswith("end "):
        raise Fault(f"the report does not belong to the log: {len(report)} lines, where {len(log)} replies and an end line "
                    "are due")
    for at, (line, reply) in enumerate(zip(log, report), 1):
        if reply.split(" ")[0] not in REPLIES[kind_of(line, at)].split():
            raise Fault(f"the report does not belong to the log: line {at} is `{line[:60]}`, and its reply `{reply[:60]}`")


def edit_of(line: str, reply: str) -> Optional[tuple]:
    """The number, the slot and the shape, or None, of the edit that a reply accepts, if it does."""
    words = Words(reply)
    kind = words.word()
    if kind == "tick" and (kind := words.word()) in ("put", "del"):
        return words.number(), words.number(), words.shape() if kind == "put" else None
    if kind not in ("put", "del"):
        return None
    asked = Words(line.split(" ", 2)[2])
    return words.number(), asked.number(), asked.shape() if kind == "put" else None


def read_history(log: list, report: list) -> list:
    """The accepted edits in their order, each a slot and its shape or None."""
    edits: dict = {}
    for at, (line, reply) in enumerate(zip(log, report), 1):
        try:
            edit = edit_of(line, reply)
        except (ValueError, IndexError):
            raise Fault(f"line {at}: `{line[:60]}` and `{reply[:60]}` are no edit and its reply") from None
        if edit:
            edits[edit[0]] = edit[1:]
    total = report[-1].split(" ")[1]
    if sorted(edits) != list(range(1, len(edits) + 1)) or str(len(edits)) != total:
        raise Fault(f"the report does not belong to the log: its edits are not numbered 1 to {total}")
    return [edits[number] for number in sorted(edits)]


def shapes_after(history: list) -> list:
    """The shapes that stand after a history."""
    slots: dict = {}
    for slot, shape in history:
        slots[slot] = shape
    return [shape for _, shape in sorted(slots.items(), key=lambda pair: pair[0]) if shape]


def choose(log: list, report: list, line: Optional[int]) -> int:
    """The place of the ask to draw: the one asked for, else the last with a path, else the last with an answer."""
    if line is None:
        asks = [at for at, reply in enumerate(report) if reply.startswith("ask ")]
        paths = [at for at in asks if report[at].split(" ")[2:3] == ["path"]]
        if not asks:
            raise Fault("no line of the log is an ask with an answer")
        return (paths or asks)[-1]
    if not 1 <= line <= len(log):
        raise Fault(f"the log has no line {line}: it has {len(log)} lines")
    if kind_of(log[line - 1], line) != "ask":
        raise Fault(f"line {line} of the log is no ask: {log[line - 1][:60]}")
    if not report[line - 1].startswith("ask "):
        raise Fault(f"line {line} of the log has no answer to draw: its reply is `{report[line - 1][:60]}`")
    return line - 1


# ---- Footprints, counts and the arm ----

def near_box(side: int, rows: int, left: float, bottom: float, right: float, top: float) -> Iterator:
    """The cells that share a point with a box, each with its column and row from the grid's middle."""
    half = rows // 2

    def places(low: float, high: float) -> range:
        return range(max(-half, math.ceil(low / side) - 1), min(half - 1, math.floor(high / side)) + 1)

    for row in places(bottom, top):
        for column in places(left, right):
            yield (row + half) * rows + column + half, column, row


def near_disc(side: int, rows: int, x: float, y: float, radius: float) -> Iterator:
    """The cells that share a point with a disc."""
    for cell, column, row in near_box(side, rows, x - radius, y - radius, x + radius, y + radius):
        across = max(column * side - x, 0, x - (column + 1) * side)
        along = max(row * side - y, 0, y - (row + 1) * side)
        if across * across + along * along <= radius * radius:
            yield cell


def is_right_of(corners: Iterable, a: Point, b: Point) -> bool:
    """Whether all corners are strictly on the right of the side from a to b."""
    return all((b[0] - a[0]) * (y - a[1]) - (b[1] - a[1]) * (x - a[0]) < 0 for x, y in corners)


def near_ring(side: int, rows: int, ring: list) -> Iterator:
    """The cells that no side, of the ring or of the cell, separates from a ring."""
    xs, ys = [x for x, _ in ring], [y for _, y in ring]
    for cell, column, row in near_box(side, rows, min(xs), min(ys), max(xs), max(ys)):
        corners = [((column + i) * side, (row + j) * side) for i in (0, 1) for j in (0, 1)]
        if not any(is_right_of(corners, a, b) for a, b in zip(ring, ring[1:] + ring[:1])):
            yield cell


def ring_of(shape: Shape) -> list:
    """The corners of a polygon."""
    return list(zip(shape.numbers[::2], shape.numbers[1::2]))


def foot(side: int, rows: int, shape: Shape) -> set:
    """The footprint of a shape: the cells that it occupies."""
    if shape.kind == "box":
        return {cell for cell, _, _ in near_box(side, rows, *shape.numbers)}
    if shape.kind == "disc":
        return set(near_disc(side, rows, *shape.numbers))
    return set(near_ring(side, rows, ring_of(shape)))


def occupied_by(the: Map, shapes: list) -> set:
    """The cells that shapes occupy."""
    return set().union(*(foot(the.side, the.rows, shape) for shape in shapes))


def barred(the: Map, occupied: set) -> tuple:
    """For each node and for each edge whether it is barred: an edge also by its ends."""
    flags = [not occupied.isdisjoint(sweep) for sweep in the.sweeps]
    nodes = flags[:len(the.nodes)]
    return nodes, [flag or nodes[a] or nodes[b] for flag, (a, b) in zip(flags[len(nodes):], the.edges)]


def joints(links: list, config: Config) -> list:
    """The points of the arm's joints and of its tip, from the base."""
    x = y = turn = 0.0
    points = [(x, y)]
    for link, coordinate in zip(links, config):
        turn += 2 * math.atan(coordinate / 1024)
        x, y = x + link.length * math.cos(turn), y + link.length * math.sin(turn)
        points.append((x, y))
    return points


def distance(a: Config, b: Config) -> int:
    """How far two configurations are apart: the differences of their coordinates, added up."""
    return sum(abs(s - t) for s, t in zip(a, b))


def between(a: Config, b: Config, step: float) -> list:
    """Configurations along the motion from a to b, both included, at most a step apart."""
    count = max(1, math.ceil(distance(a, b) / step))
    return [tuple(s + (t - s) * i / count for s, t in zip(a, b)) for i in range(count + 1)]


def sampled_cells(the: Map, a: Config, b: Config) -> set:
    """The cells that the arm meets in samples of the motion from a to b."""
    cells: set = set()
    for config in between(a, b, 8):
        points = joints(the.links, config)
        for link, (x, y), (u, v) in zip(the.links, points, points[1:]):
            pieces = max(1, math.ceil(16 * link.length / the.side))
            for i in range(pieces + 1):
                cells.update(near_disc(the.side, the.rows, x + (u - x) * i / pieces, y + (v - y) * i / pieces, link.radius))
    return cells


def moments(stops: list, count: int) -> list:
    """So many configurations at equal distances along the motion through the stops, without its ends."""
    lengths = [distance(a, b) for a, b in zip(stops, stops[1:])]
    found = []
    for i in range(1, count + 1):
        left, leg = sum(lengths) * i / (count + 1), 0
        while leg + 1 < len(lengths) and left > lengths[leg]:
            left, leg = left - lengths[leg], leg + 1
        share = left / lengths[leg] if lengths[leg] else 0
        found.append(tuple(s + (t - s) * share for s, t in zip(stops[leg], stops[leg + 1])))
    return found
