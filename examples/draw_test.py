"""Tests of the pictures of answers: `python3 examples/draw_test.py`."""
import contextlib
import io
import os
import tempfile
import unittest
from xml.etree import ElementTree

import draw
import scene
from scene import Fault, Shape

LOG = """0 ask 0 1024
0 put 7 box 140 140 150 150
0 put 3 box 140 -150 150 -140
0 ask 0 1024
0 ask -2048 2048
0 del 7
0 sync
0 ask 10 1024
"""
REPORT = """ask 0 path 0 0 1 0 1024 2 0 1 4 0 1024 1024 2048
put 1
put 2
ask 2 cut 0 0 1 0 1 0
limits start 0
del 3
sync 3
ask 3 path 0 0 1 0 1024 2 0 1 4 0 1024 - 2048
end 3 0 1
"""


def file_of(the):
    """The bytes of a map's file, as docs/FORMATS.md describes them."""
    def number(size, value):
        return value.to_bytes(size, "big", signed=value < 0)
    parts = [b"DRMP", number(2, 1), number(1, len(the.links)), *(number(2, value) for link in the.links for value in link),
             number(2, the.side), number(1, the.rows), number(2, len(the.nodes)),
             *(number(2, value) for node in the.nodes for value in node),
             number(4, len(the.edges)), *(number(2, node) for edge in the.edges for node in edge)]
    parts += [number(2, value) for sweep in the.sweeps for value in (len(sweep), *sweep)]
    return b"".join(parts)


class Reading(unittest.TestCase):
    """Map files and footprints."""

    def test_reads_maps_and_names_faults(self):
        good = file_of(scene.SAMPLE)
        self.assertEqual(scene.read_map(good), scene.SAMPLE)
        for bad, said in ((b"DRMQ" + good[4:], "map magic"), (good[:-1], f"map short {len(good) - 1}"), (b"DR", "map short 2"),
                          (good + b"\0", f"map excess {len(good)}"), (good[:5] + b"\2" + good[6:], "map field 4"),
                          (good[:-2] + b"\0\x10", f"map field {len(good) - 2}")):
            with self.assertRaisesRegex(Fault, f"^{said}$"):
                scene.read_map(bad)

    def test_footprints_are_closed(self):
        for kind, numbers, cells in (
                ("box", [140, 140, 150, 150], {15}), ("box", [0, 0, 0, 0], {5, 6, 9, 10}), ("box", [256, 1, 300, 1], {11}),
                ("box", [257, 0, 300, 9], set()), ("box", [-9999, -9999, 9999, 9999], set(range(16))),
                ("disc", [64, 64, 64], {6, 9, 10, 11, 14}), ("disc", [64, 64, 63], {10}),
                ("disc", [128, 128, 0], {10, 11, 14, 15}), ("disc", [3, 4, 5], {5, 6, 9, 10}), ("disc", [4, 4, 5], {6, 9, 10}),
                ("poly", [10, 10, 120, 10, 10, 120], {10}), ("poly", [64, 300, 300, 64, 300, 300], {11, 14, 15}),
                ("poly", [0, 256, 256, 0, 256, 256], {7, 10, 11, 13, 14, 15})):
            with self.subTest(kind=kind, numbers=numbers):
                self.assertEqual(scene.foot(128, 4, Shape(kind, numbers)), cells)

    def test_the_arm_stands_as_coordinates_say(self):
        links = [scene.Link(1000, 0, -4096, 4096)]
        for coordinate, tip in ((512, (600, 800)), (1024, (0, 1000)), (-2048, (-600, -800))):
            self.assertAlmostEqual(scene.joints(links, (coordinate,))[-1][0], tip[0])
            self.assertAlmostEqual(scene.joints(links, (coordinate,))[-1][1], tip[1])

    def test_what_is_barred_is_recounted(self):
        nodes, edges = scene.barred(scene.SAMPLE, {12})
        self.assertEqual((nodes, edges), ([False, False, False, True], [False, False, True]))


class Drawing(unittest.TestCase):
    """Pictures and refusals."""

    def draw(self, log=LOG, report=REPORT, *words, name="sample"):
        """The status, the text on standard error, and the picture."""
        with tempfile.TemporaryDirectory() as folder:
            places = [os.path.join(folder, file) for file in ("log", "report", "out.svg")]
            for place, text in zip(places, (log, report)):
                with open(place, "w", encoding="ascii") as file:
                    file.write(text)
            said = io.StringIO()
            with contextlib.redirect_stderr(said):
                try:
                    status = draw.main([name, *places, *words])
                except SystemExit as end:
                    status = end.code
            picture = ""
            if os.path.exists(places[2]):
                with open(places[2], encoding="utf-8") as file:
                    picture = file.read()
            return status, said.getvalue(), picture

    def classes(self, picture):
        """The classes of a picture's elements; it is well formed."""
        return {element.get("class") for element in ElementTree.fromstring(picture).iter()}

    def test_draws_the_last_path(self):
        status, said, picture = self.draw()
        self.assertEqual((status, said), (0, ""))
        self.assertIn("line 8:  0 ask 10 1024", picture)
        self.assertTrue({"way", "swept", "foot", "shape", "free", "barred", "start", "goal"} <= self.classes(picture))

    def test_draws_what_stands_at_the_reply(self):
        self.assertNotIn("shape", self.classes(self.draw(LOG, REPORT, "--line", "1")[2]))
        picture = self.draw(LOG, REPORT, "--line", "4")[2]
        self.assertTrue({"ring", "join", "shape"} <= self.classes(picture))
        self.assertEqual(picture.count('<rect class="shape"'), 2)
        self.assertTrue({"free", "barred", "node"}.isdisjoint(self.classes(self.draw(LOG, REPORT, "--roadmap", "none")[2])))

    def test_draws_each_answer(self):
        for answer in ("nostart 2 0 b 1 c 15", "nogoal 1 3 c 15", "unsound 0 0 1 1 2 b 0 15"):
            with self.subTest(answer=answer):
                status, _, picture = self.draw(LOG, REPORT.replace("cut 0 0 1 0 1 0", answer), "--line", "4")
                self.assertEqual(status, 0)
                self.assertTrue({"met", "start", "goal"} <= self.classes(picture))

    def test_refusals(self):
        brief = REPORT.replace("path 0 0 1 0 1024 2 0 1 4 0 1024 1024 2048", "path 0 1 1024")
        for log, report, words, status, said in (
                (LOG, REPORT, ["--line", "2"], 2, "line 2 of the log is no ask"),
                (LOG, REPORT, ["--line", "5"], 2, "line 5 of the log has no answer to draw"),
                (LOG, REPORT, ["--line", "9"], 2, "the log has no line 9"),
                (LOG, brief, ["--line", "1"], 2, "line 1 of the report is no answer in full"),
                (LOG[13:], REPORT, [], 2, "the report does not belong to the log: 9 lines"),
                (LOG.replace("0 sync", "0 count node 1"), REPORT, [], 2, "does not belong to the log: line 7"),
                (LOG, REPORT.replace("put 2", "put 4"), [], 2, "its edits are not numbered 1 to 3"),
                (LOG, REPORT.replace("end 3 0 1", "end 3 0 2"), [], 2, "its last line is `end 3 0 2`"),
                (LOG, REPORT.replace("1024 2 0 1 4 0", "1025 2 0 1 4 0"), [], 2, "its route has another length"),
                (LOG, REPORT.replace("ask 3 path", "ask 1 path"), [], 2, "its route is barred"),
                (LOG, REPORT.replace("ask 3 path", "ask 4 path"), [], 2, "names entry 4 of 3"),
                (LOG, REPORT.replace("1024 2 0 1 4 0", "1024 2 0 9 4 0"), [], 2, "it has 4 nodes"),
                (LOG.replace("ask 10 1024", "ask 10"), REPORT, [], 2, "has 1 coordinates"),
                (LOG + "0 sing\n", REPORT, [], 2, "the report does not belong"),
                (LOG, REPORT, ["--moments", "100"], 2, "number from 0 to 99")):
            with self.subTest(said=said):
                found = self.draw(log, report, *words)
                self.assertEqual((found[0], found[2]), (status, ""))
                self.assertIn(said, found[1])
        found = self.draw(name="/no/such.map")
        self.assertEqual((found[0], found[2]), (1, ""))
        self.assertIn("cannot read /no/such.map", found[1])

    def test_colours_read_on_white_and_on_black(self):
        for name, colour in draw.COLOURS.items():
            parts = [int(colour[at:at + 2], 16) / 255 for at in (1, 3, 5)]
            light = sum(share * (part / 12.92 if part <= .04045 else ((part + .055) / 1.055) ** 2.4)
                        for share, part in zip((.2126, .7152, .0722), parts))
            least = 4.5 if name == "text" else 3
            self.assertGreaterEqual(min(1.05 / (light + .05), (light + .05) / .05), least, name)


if __name__ == "__main__":
    unittest.main()
