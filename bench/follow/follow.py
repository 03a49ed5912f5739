#!/usr/bin/env python3
"""How far a controller leaves a certified motion that goes straight in the angles of the joints, and not in T.

Use: follow.py MAP REPORT     MAP is a map file, REPORT a full report over it. For each motion of each path of the report between
two nodes of the route, and for each path as a whole, it prints how far a joint or the tip of the arm comes, at the most, from where
it is at the nearest configuration of the certified motion, in units. The least distance is taken over 512 moments.
"""
import math
import struct
import sys

MOMENTS = 512


def read_map(data):
    """The lengths of the links, and the coordinates of the nodes."""
    links = data[6]
    at, lengths = 7, []
    for _ in range(links):
        lengths.append(struct.unpack_from(">H", data, at)[0])
        at += 8
    at += 3
    count = struct.unpack_from(">H", data, at)[0]
    at += 2
    nodes = [struct.unpack_from(f">{links}h", data, at + 2 * links * i) for i in range(count)]
    return lengths, nodes


def routes(text):
    """The nodes of each path of the report."""
    for line in text.splitlines():
        words = line.split()
        if words[:1] == ["ask"] and words[2] == "path":
            at = 3
            for _ in range(2):
                tried = int(words[at + 1])
                at += 2
                for _ in range(tried):
                    at += 2 if words[at + 1] == "b" else 3
            count = int(words[at + 1])
            yield [int(word) for word in words[at + 2:at + 2 + count]]


def joints(lengths, angles):
    """Where the end of each link is."""
    x = y = turned = 0.0
    found = []
    for length, angle in zip(lengths, angles):
        turned += angle
        x, y = x + length * math.cos(turned), y + length * math.sin(turned)
        found.append((x, y))
    return found


def apart(one, other):
    """How far two poses are apart, at the most, at the ends of their links."""
    return max(math.dist(a, b) for a, b in zip(one, other))


def left(lengths, start, goal):
    """How far the motion that is straight in the angles leaves the one that is straight in T."""
    angle = lambda t: 2 * math.atan(t / 1024)
    part = lambda a, b, s: a + s * (b - a)
    moments = [i / MOMENTS for i in range(MOMENTS + 1)]
    certified = [joints(lengths, [angle(part(a, b, s)) for a, b in zip(start, goal)]) for s in moments]
    turned = [joints(lengths, [part(angle(a), angle(b), s) for a, b in zip(start, goal)]) for s in moments[::8]]
    return max(min(apart(pose, other) for other in certified) for pose in turned)


def main():
    if len(sys.argv) != 3:
        sys.exit(__doc__)
    with open(sys.argv[1], "rb") as file:
        lengths, nodes = read_map(file.read())
    with open(sys.argv[2], encoding="ascii") as file:
        found = list(routes(file.read()))
    known, worst = {}, []
    for route in found:
        for edge in zip(route, route[1:]):
            key = tuple(sorted(edge))
            if key not in known:
                known[key] = left(lengths, nodes[key[0]], nodes[key[1]])
        worst.append(max((known[tuple(sorted(edge))] for edge in zip(route, route[1:])), default=0.0))
    worst.sort()
    if worst:
        print(f"{len(worst)} paths over {len(known)} edges: median {worst[len(worst) // 2]:.1f}, greatest {worst[-1]:.1f} units")


if __name__ == "__main__":
    main()
