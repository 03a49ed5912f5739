#!/usr/bin/env python3
"""Draws one answer of a full report as an SVG picture.

    draw.py MAP LOG REPORT OUT.svg [--line N] [--roadmap none|free|all] [--moments N] [--width PIXELS]

MAP is a map file, or `sample` for the sample map; LOG a log; REPORT its report over the map, in full. The forms of all
three are in docs/FORMATS.md. What is drawn stands after the entry that the reply names: the obstacles with the cells that
they occupy, the roadmap with what they bar, and the arm at the start, at the goal and, where there is a path, between.

    --line N       the line of the log, counted from 1; else the last ask with a path, or the last one with an answer
    --roadmap R    none of the roadmap, what is free of it, or all (all)
    --moments N    how many moments of the motion between start and goal are drawn, 0 to 99 (5)
    --width W      the width of the picture in pixels (960)

The picture is no proof: what is barred is recounted from the stored sweeps, but arms are drawn with floating point, and the
cells of a joining motion are sampled. Status 0: the picture was written; 1: a file could not be read or written; 2: the
words, or what a file holds, do not fit.
"""
from __future__ import annotations

import argparse
import math
import sys
from typing import Callable, Iterable, NamedTuple, Optional
from xml.sax.saxutils import escape

from scene import (SAMPLE, Answer, Config, Fault, Map, Point, Shape, between, barred, check_replies, choose, joints, moments,
                   occupied_by, read_answer, read_history, read_map, ring_of, sampled_cells, shapes_after, split_lines)

# Each colour can be read on white and on black: its contrast with both is at least 3, and that of text at least 4.5.
COLOURS = {"text": "#767676", "grid": "#808080", "free": "#6f86b5", "barred": "#c0603a", "foot": "#d9482b", "swept": "#a8822a",
           "start": "#1b8f5f", "goal": "#2b7fd0", "between": "#7f7f8c", "way": "#b54fc4"}
STYLE = """
text{font:14px system-ui,"Segoe UI",Helvetica,Arial,sans-serif;fill:%(text)s}
.mono{font-family:ui-monospace,Menlo,Consolas,"DejaVu Sans Mono",monospace;font-size:13px}
.strong{font-weight:600}.mid{text-anchor:middle}
path,rect,circle,polygon{fill:none;stroke-linecap:round;stroke-linejoin:round}
.grid{stroke:%(grid)s;stroke-width:.6;stroke-opacity:.4}.frame{stroke:%(grid)s;stroke-width:1.2}
.swept{fill:%(swept)s;fill-opacity:.24}
.foot{fill:url(#hatch);stroke:%(foot)s;stroke-width:1;stroke-opacity:.6}.hatch{stroke:%(foot)s;stroke-width:1.4}
.shape{fill:%(foot)s;stroke:%(foot)s;stroke-width:1.5}
.free{stroke:%(free)s;stroke-width:.9;stroke-opacity:.65}
.barred{stroke:%(barred)s;stroke-width:.9;stroke-opacity:.65;stroke-dasharray:2 3.5}
.node{stroke:%(free)s;stroke-width:5}.cross{stroke:%(barred)s;stroke-width:1.4}
.start{stroke:%(start)s}.goal{stroke:%(goal)s}.between{stroke:%(between)s}
.bulk{stroke-opacity:1}.axis{stroke-width:2}.dot{stroke-width:7}
.way{stroke:%(way)s;stroke-width:2.6}.tag{fill:%(way)s;stroke:none}.tagged{font-size:11px;font-weight:600;fill:#fff}
.ring{stroke:%(start)s;stroke-width:2}.join{stroke:%(way)s;stroke-width:2}.refused{stroke:%(foot)s;stroke-width:2}
.met{stroke:%(way)s;stroke-width:2.5}.base{fill:%(text)s;stroke:none}
""" % COLOURS
WIDTH, SIZE, LEFT, TOP = 960, 620, 14, 78
KEY = LEFT + SIZE + 26


def short(number: float) -> str:
    """A number to one decimal, as briefly as SVG reads it."""
    return f"{number:.1f}".rstrip("0").rstrip(".").replace("-0.", "-.") if abs(number) >= .05 else "0"


def pair(x: float, y: float) -> str:
    """Two numbers, with a blank between them where SVG needs one."""
    return short(x) + ("" if y <= -.05 else " ") + short(y)


def path(name: str, steps: Iterable) -> str:
    """A path element of a class."""
    return f'<path class="{name}" d="{"".join(steps)}"/>'


def text(x: float, y: float, words: str, name: str = "") -> str:
    """A text element, of a class if one is named."""
    return f'<text x="{short(x)}" y="{short(y)}"{f" class={chr(34)}{name}{chr(34)}" if name else ""}>{escape(words)}</text>'


class Sheet:
    """The place of the grid on the picture, and the elements that are drawn there."""

    def __init__(self, the: Map) -> None:
        self.map, self.scale, self.parts, self.key = the, SIZE / (the.side * the.rows), [], []

    def at(self, point: Point) -> Point:
        """Where a point of the workspace lies on the picture."""
        return LEFT + SIZE / 2 + point[0] * self.scale, TOP + SIZE / 2 - point[1] * self.scale

    def line(self, points: Iterable) -> str:
        """The steps of a path along points of the workspace; each step starts where the rounded one before it ended."""
        steps, last = "", (0.0, 0.0)
        for point in points:
            x, y = self.at(point)
            steps += ("l" if steps else "M") + pair(x - last[0], y - last[1])
            last = round(last[0] + round(x - last[0], 1), 1), round(last[1] + round(y - last[1], 1), 1)
        return steps

    def tip(self, config: Config) -> Point:
        """Where the arm's tip is in a configuration."""
        return joints(self.map.links, config)[-1]

    def curve(self, configs: Iterable) -> str:
        """The steps of a path along the tip."""
        return self.line(self.tip(config) for config in configs)

    def marks(self, nodes: Iterable, steps: str) -> list:
        """The same mark at the tip of each of these nodes."""
        return [f"M{pair(*self.at(self.tip(self.map.nodes[node])))}{steps}" for node in nodes]

    def cells(self, cells: Iterable) -> str:
        """The steps of a path round cells: one rectangle for each run of neighbours in a row."""
        rows, side, runs = self.map.rows, self.map.side, []
        for cell in sorted(cells):
            if runs and runs[-1][1] == cell and cell % rows:
                runs[-1][1] = cell + 1
            else:
                runs.append([cell, cell + 1])
        steps = ""
        for first, end in runs:
            x, y = self.at(((first % rows - rows // 2) * side, (first // rows + 1 - rows // 2) * side))
            wide, high = short((end - first) * side * self.scale), short(side * self.scale)
            steps += f"M{pair(x, y)}h{wide}v{high}h-{wide}z"
        return steps

    def add(self, part: str, label: str = "", swatch: str = "") -> None:
        """Draws an element, and puts it into the legend where it has a label."""
        self.parts.append(part)
        if label:
            self.key.append((label, swatch))


# The marks of the legend, and those at the tips of nodes.
DOT, CROSS, RING = "h0", "m-2.6-2.6l5.2 5.2m0-5.2l-5.2 5.2", "m-5 0a5 5 0 1 0 10 0a5 5 0 1 0-10 0"
SQUARE, DIAMOND, BLOCK, STROKE = "m-8-8h16v16h-16z", "m-6 0l6-6l6 6l-6 6z", "m-13-8h26v16h-26z", "m-14 0h28"


class Scene(NamedTuple):
    """What is drawn: the map, the ask's ends, its answer, what stands then, and what it bars."""
    map: Map
    start: Config
    goal: Config
    answer: Answer
    shapes: list
    occupied: set
    nodes: list
    edges: list

    def stops(self) -> list:
        """The configurations through which the motion of a path goes straight."""
        return [self.start, *(self.map.nodes[node] for node in self.answer.nodes), self.goal]

    def swept(self) -> set:
        """The cells of a path: the stored sweeps of its edges, and what samples of the joining motions meet."""
        stops, places = self.stops(), edge_places(self.map)
        cells = sampled_cells(self.map, *stops[:2]) | sampled_cells(self.map, *stops[-2:])
        for a, b in zip(self.answer.nodes, self.answer.nodes[1:]):
            cells.update(self.map.sweeps[len(self.map.nodes) + places[min(a, b), max(a, b)]])
        return cells


def edge_places(the: Map) -> dict:
    """The number of the edge that joins two nodes, the lesser first."""
    return {edge: at for at, edge in enumerate(the.edges)}


def draw_grid(sheet: Sheet) -> None:
    """The lines between the cells."""
    step, rows = SIZE / sheet.map.rows, sheet.map.rows
    lines = [f"M{LEFT} {short(TOP + i * step)}h{SIZE}M{short(LEFT + i * step)} {TOP}v{SIZE}" for i in range(1, rows)]
    sheet.add(path("grid", lines))
    frame = f'<rect class="frame" x="{LEFT}" y="{TOP}" width="{SIZE}" height="{SIZE}"/>'
    sheet.add(frame, f"grid of cells of side {sheet.map.side}", path("frame", ["M0 0m-8-8h16v16h-16z"]))
    sheet.add("", "base of the arm", '<circle class="base" r="6"/>')


def draw_shape(sheet: Sheet, shape: Shape) -> str:
    """The element of an obstacle."""
    numbers, scale = shape.numbers, sheet.scale
    if shape.kind == "disc":
        x, y = sheet.at(numbers)
        return f'<circle class="shape" cx="{short(x)}" cy="{short(y)}" r="{short(numbers[2] * scale)}"/>'
    if shape.kind == "poly":
        return path("shape", [sheet.line(ring_of(shape)) + "z"])
    left, bottom, right, top = numbers
    x, y = sheet.at((left, top))
    size = f'width="{short((right - left) * scale)}" height="{short((top - bottom) * scale)}"'
    return f'<rect class="shape" x="{short(x)}" y="{short(y)}" {size}/>'


def draw_cells(sheet: Sheet, scene: Scene) -> None:
    """The cells that the motions of a path sweep, and those that obstacles occupy."""
    if scene.answer.kind == "path":
        sheet.add(path("swept", [sheet.cells(scene.swept())]), "cell that the motions sweep", path("swept", ["M0 0", BLOCK]))
    if scene.occupied:
        sheet.add(path("foot", [sheet.cells(scene.occupied)]), "cell that an obstacle occupies", path("foot", ["M0 0", BLOCK]))


def draw_obstacles(sheet: Sheet, scene: Scene) -> None:
    """The obstacles, as far as they lie in the grid."""
    shapes = "".join(draw_shape(sheet, shape) for shape in scene.shapes)
    if shapes:
        sheet.add(f'<g clip-path="url(#inside)">{shapes}</g>', "obstacle", path("shape", ["M0 0m-7-7h14v14h-14z"]))


def draw_roadmap(sheet: Sheet, scene: Scene, barred_too: bool) -> None:
    """The nodes at the arm's tip, and the edges as the tip's curve: what is free, and what is barred."""
    the, kinds = scene.map, (("free", "node", DOT, False), ("barred", "cross", CROSS, True))
    for name, node_name, mark, flag in kinds[:2 if barred_too else 1]:
        edges = [edge for edge, is_barred in zip(the.edges, scene.edges) if is_barred == flag]
        nodes = [node for node, is_barred in enumerate(scene.nodes) if is_barred == flag]
        if edges:
            curves = [sheet.curve(between(the.nodes[a], the.nodes[b], 200)) for a, b in edges]
            sheet.add(path(name, curves), f"tip along an edge, {name} ({len(edges)})", path(name, ["M0 0", STROKE]))
        if nodes:
            sheet.add(path(node_name, sheet.marks(nodes, mark)), f"tip at a node, {name} ({len(nodes)})",
                      path(node_name, ["M0 0", mark]))


def arm(sheet: Sheet, config: Config, name: str, opacity: float) -> str:
    """The arm in a configuration: its links with their radii, the axis and the joints."""
    points = joints(sheet.map.links, config)
    bulk = "".join(f'<path d="{sheet.line(ends)}" stroke-width="{short(max(2 * link.radius * sheet.scale, 1))}"/>'
                   for link, ends in zip(sheet.map.links, zip(points, points[1:])))
    dots = "".join(f"M{pair(*sheet.at(point))}h0" for point in points[1:])
    return f'<g class="{name}"><g opacity="{opacity}">{bulk}</g>{path("axis", [sheet.line(points)])}{path("dot", [dots])}</g>'


def draw_ends(sheet: Sheet, scene: Scene) -> None:
    """The arm at the start and at the goal."""
    for name, config in (("goal", scene.goal), ("start", scene.start)):
        swatch = f'<g class="{name}"><path opacity=".5" stroke-width="14" d="M-9 0h18"/><path class="axis" d="M-9 0h18"/></g>'
        sheet.add(arm(sheet, config, name, .5), f"arm at the {name}", swatch)


def draw_path(sheet: Sheet, scene: Scene, count: int) -> None:
    """The arm between start and goal, and the way of its tip with the moments numbered along it."""
    stops, found = scene.stops(), moments(scene.stops(), count)
    swatch = '<g class="between"><path opacity=".28" stroke-width="14" d="M-9 0h18"/><path class="axis" d="M-9 0h18"/></g>'
    arms = "".join(arm(sheet, config, "between", .28) for config in found)
    if arms:
        sheet.add(arms, f"arm at {len(found)} moments between", swatch)
    draw_ends(sheet, scene)
    legs = [config for a, b in zip(stops, stops[1:]) for config in between(a, b, 24)]
    sheet.add(path("way", [sheet.curve(legs)]), "tip's way, moments numbered", path("way", ["M0 0", STROKE]))
    for number, config in enumerate(found, 1):
        x, y = sheet.at(sheet.tip(config))
        sheet.add(f'<circle class="tag" cx="{short(x)}" cy="{short(y)}" r="8"/>{text(x, y + 4, str(number), "tagged mid")}')


def draw_names(sheet: Sheet, scene: Scene) -> None:
    """The words beside the tips of the arm at its start and at its goal, and the base."""
    for name, config in (("start", scene.start), ("goal", scene.goal)):
        (x, y), (u, v) = (sheet.at(point) for point in joints(sheet.map.links, config)[-2:])
        radius = sheet.map.links[-1].radius * sheet.scale
        long = math.hypot(u - x, v - y)
        out = (radius + 12 + 12 * abs(u - x) / long) / long
        x, y = u + (u - x) * out, v + (v - y) * out
        if not LEFT + 20 <= x <= LEFT + SIZE - 20 or not TOP + 9 <= y <= TOP + SIZE - 9:
            x, y = min(max(u, LEFT + 20), LEFT + SIZE - 20), v + (radius + 12) * (1 if v < TOP + SIZE / 2 else -1)
        sheet.add(text(x, y + 5, name, "strong mid"))
    x, y = sheet.at((0, 0))
    sheet.add(f'<circle class="base" cx="{short(x)}" cy="{short(y)}" r="6"/>')


def draw_marks(sheet: Sheet, scene: Scene) -> None:
    """The nodes that an answer tells of, and the cells that it names."""
    answer, ends = scene.answer, [end for end in (scene.answer.start, scene.answer.goal) if end]
    if answer.kind == "cut":
        sheet.add(path("ring", sheet.marks(answer.nodes, RING)),
                  f"node on the start's side ({len(answer.nodes)})", path("ring", ["M0 0", RING]))
    joined = [end.node for end in ends if end.node is not None]
    if joined:
        sheet.add(path("join", sheet.marks(joined, SQUARE)), "node that an end is joined to", path("join", ["M0 0", SQUARE]))
    refused = {node for end in ends for node, _ in end.refused}
    if refused:
        sheet.add(path("refused", sheet.marks(sorted(refused), DIAMOND)), f"node refused for an end ({len(refused)})",
                  path("refused", ["M0 0", DIAMOND]))
    met = {cell for end in ends for _, cell in end.refused if cell is not None} | {answer.cell} - {None}
    if met:
        sheet.add(path("met", [sheet.cells([cell]) for cell in sorted(met)]), "cell that the answer names",
                  path("met", ["M0 0", BLOCK]))
    if answer.kind == "unsound":
        a, b = (scene.map.nodes[node] for node in scene.map.edges[answer.nodes[0]])
        sheet.add(path("way", [sheet.curve(between(a, b, 24))]), "edge that the answer names", path("way", ["M0 0", STROKE]))


def caption(scene: Scene, line: int, words: str) -> list:
    """The line of the log, the reply in brief, and what it says in words."""
    answer = scene.answer
    a, b = (end.node if end else None for end in (answer.start, answer.goal))
    brief = {"path": f" {a} {b} {answer.length}", "cut": f" {a} {b}"}.get(answer.kind, "")
    if answer.kind == "unsound":
        brief = f" {answer.nodes[0]} {answer.cell}"
    says = {
        "path": f"a way out to node {a}, along {len(answer.nodes)} nodes to node {b}, and home to the goal; route of length "
                f"{answer.length}",
        "cut": f"no route is left between node {a} and node {b}: each edge from the start's side "
               "to the rest is barred",
        "nostart": "the start cannot be joined to the roadmap: each candidate is refused",
        "nogoal": "the goal cannot be joined to the roadmap: each candidate is refused",
        "unsound": "an edge of the route is not barred, and yet sweeps the occupied cell",
    }[answer.kind]
    front = answer.front
    return [f"line {line}:  {words}", f"reply:  ask {front} {answer.kind}{brief}", f"After entry {front}: {says}."]


def picture(scene: Scene, options: argparse.Namespace, line: int, words: str) -> str:
    """The text of the SVG."""
    sheet = Sheet(scene.map)
    draw_grid(sheet)
    draw_cells(sheet, scene)
    if options.roadmap != "none":
        draw_roadmap(sheet, scene, options.roadmap == "all")
    draw_obstacles(sheet, scene)
    if scene.answer.kind == "path":
        draw_path(sheet, scene, options.moments)
    else:
        draw_ends(sheet, scene)
    draw_marks(sheet, scene)
    draw_names(sheet, scene)
    lines = [text(LEFT, 20 + 22 * at, said, "" if at == 2 else "mono") for at, said in enumerate(caption(scene, line, words))]
    key = [f'<g transform="translate({KEY + 16} {TOP + 16 + 29 * at})">{swatch}</g>{text(KEY + 42, TOP + 21 + 29 * at, label)}'
           for at, (label, swatch) in enumerate(reversed(sheet.key))]
    height = TOP + SIZE + 14
    head = (f'<svg xmlns="http://www.w3.org/2000/svg" viewBox="0 0 {WIDTH} {height}" width="{options.width}" '
            f'height="{round(options.width * height / WIDTH)}">')
    defs = ('<defs><pattern id="hatch" width="6" height="6" patternUnits="userSpaceOnUse"><path class="hatch" d="M0 6L6 0"/>'
            f'</pattern><clipPath id="inside"><rect x="{LEFT}" y="{TOP}" width="{SIZE}" height="{SIZE}"/></clipPath></defs>')
    title = f"<title>{escape(' '.join(caption(scene, line, words)))}</title>"
    return "\n".join([head, title, f"<style>{STYLE}</style>", defs, *lines, *sheet.parts, *key, "</svg>", ""])


def check_answer(the: Map, answer: Answer, nodes: list, edges: list) -> None:
    """A fault where the answer cannot be one over the map: what it names is not there, or its route is barred."""
    ends = [end for end in (answer.start, answer.goal) if end]
    named = [node for end in ends for node in [end.node, *(node for node, _ in end.refused)] if node is not None]
    if answer.kind != "unsound":
        named += answer.nodes
    elif answer.nodes[0] >= len(the.edges):
        raise Fault(f"the report does not belong to the map: it has no edge {answer.nodes[0]}")
    if any(not 0 <= node < len(the.nodes) for node in named):
        raise Fault(f"the report does not belong to the map: it has {len(the.nodes)} nodes, and an answer names {max(named)}")
    if answer.kind == "path":
        check_route(the, answer, nodes, edges)


def check_route(the: Map, answer: Answer, nodes: list, edges: list) -> None:
    """A fault where a path's nodes are no route between its ends of its length, or are barred."""
    places, route = edge_places(the), answer.nodes
    legs = [places.get((min(a, b), max(a, b))) for a, b in zip(route, route[1:])]
    if not route or None in legs or (route[0], route[-1]) != (answer.start.node, answer.goal.node):
        raise Fault("the report does not belong to the map: its nodes are no route of the roadmap")
    if any(edges[leg] for leg in legs) or any(nodes[node] for node in route):
        raise Fault("the report does not belong to the map and the log: its route is barred")
    if sum(distance_of(the, leg) for leg in legs) != answer.length:
        raise Fault("the report does not belong to the map: its route has another length")


def distance_of(the: Map, edge: int) -> int:
    """The weight of an edge."""
    a, b = the.edges[edge]
    return sum(abs(s - t) for s, t in zip(the.nodes[a], the.nodes[b]))


def check_totals(the: Map, history: list, line: str) -> None:
    """A fault where the end line tells of other numbers of barred nodes and edges than stand after the history."""
    nodes, edges = barred(the, occupied_by(the, shapes_after(history)))
    if line != f"end {len(history)} {sum(nodes)} {sum(edges)}":
        raise Fault(f"the report does not belong to the map and the log: its last line is `{line[:60]}`, where {sum(nodes)} "
                    f"nodes and {sum(edges)} edges are barred after {len(history)} edits")


def read_scene(the: Map, log: list, report: list, at: int) -> Scene:
    """What the ask at this place of the log is answered, and what stands then."""
    history = read_history(log, report)
    try:
        answer, ends = read_answer(report[at]), [int(word) for word in log[at].split(" ")[2:]]
    except (ValueError, KeyError):
        raise Fault(f"line {at + 1} of the report is no answer in full (`replay MAP full`): {report[at][:60]}") from None
    if answer.front > len(history):
        raise Fault(f"the report does not belong to the log: line {at + 1} names entry {answer.front} of {len(history)}")
    if len(ends) != 2 * len(the.links):
        raise Fault(f"line {at + 1} of the log has {len(ends)} coordinates, and the map's arm {len(the.links)} joints")
    check_totals(the, history, report[-1])
    shapes = shapes_after(history[:answer.front])
    occupied = occupied_by(the, shapes)
    nodes, edges = barred(the, occupied)
    check_answer(the, answer, nodes, edges)
    half = len(the.links)
    return Scene(the, tuple(ends[:half]), tuple(ends[half:]), answer, shapes, occupied, nodes, edges)


def load(name: str) -> bytes:
    """The bytes of a file."""
    try:
        with open(name, "rb") as file:
            return file.read()
    except OSError as error:
        raise Fault(f"cannot read {name}: {error.strerror}", 1) from None


def number_of(least: int, most: int) -> Callable:
    """What reads an option's whole number between two bounds."""
    def read(word: str) -> int:
        if not least <= int(word) <= most:
            raise ValueError
        return int(word)
    read.__name__ = f"number from {least} to {most}"
    return read


def options_of(words: Optional[list]) -> argparse.Namespace:
    """The files and options that the words name."""
    parser = argparse.ArgumentParser(prog="draw.py", description="Draws one answer of a full report as an SVG picture.")
    for name, said in (("MAP", "a map file, or sample"), ("LOG", "a log"), ("REPORT", "its full report"), ("OUT", "the SVG")):
        parser.add_argument(name, help=said)
    parser.add_argument("--line", type=number_of(1, 200000), help="the line of the log (the last ask with a path)")
    parser.add_argument("--roadmap", choices=("none", "free", "all"), default="all", help="how much of it is drawn (all)")
    parser.add_argument("--moments", type=number_of(0, 99), default=5, help="moments between start and goal (5)")
    parser.add_argument("--width", type=number_of(100, 10000), default=WIDTH, help=f"in pixels ({WIDTH})")
    return parser.parse_args(words)


def run(options: argparse.Namespace) -> None:
    """Reads the files, and writes the picture."""
    the = SAMPLE if options.MAP == "sample" else read_map(load(options.MAP))
    log, report = split_lines(options.LOG, load(options.LOG)), split_lines(options.REPORT, load(options.REPORT))
    check_replies(log, report)
    at = choose(log, report, options.line)
    text_of = picture(read_scene(the, log, report, at), options, at + 1, log[at])
    try:
        with open(options.OUT, "w", encoding="utf-8") as file:
            file.write(text_of)
    except OSError as error:
        raise Fault(f"cannot write {options.OUT}: {error.strerror}", 1) from None


def main(words: Optional[list] = None) -> int:
    """The program: tells a fault on standard error, and gives the status."""
    try:
        run(options_of(words))
    except Fault as fault:
        print(f"draw.py: {fault}", file=sys.stderr)
        return fault.status
    return 0


if __name__ == "__main__":
    sys.exit(main())
