"""Each reply of each graph command is drawn once, and where graphviz is installed it reads what was drawn."""

import shutil
import subprocess
import sys
import tempfile
import unittest
from pathlib import Path

from samples import BOW, CROSS, GOOD, K4, LOOPS, ROOT, STREETS, TAIL, TOOLS, load, text

to_dot = load("to_dot")
GRAPH_WORDS = ("matching", "spaths", "cactus", "genus", "epaths", "feedback", "forestpairs", "sparepairs")


def read(lines, name="graph"):
    return to_dot.read_graph(to_dot.Text(text(lines), name))


def draw(graph, reply=None, places=None):
    graph = read(graph)
    return to_dot.to_dot(graph, to_dot.reply_of(to_dot.Text(text(reply), "reply"), graph) if reply else None, places)


def fault(graph, reply):
    try:
        draw(graph, reply)
    except (to_dot.Fault, to_dot.Undrawable) as found:
        return str(found)
    return "nothing is wrong"


def rows(dot, piece):
    return [row.strip() for row in dot.splitlines() if piece in row]


class Drawings(unittest.TestCase):
    def test_each_reply_is_drawn(self):
        dots = [draw(given, reply) for words, given, reply in GOOD if words in GRAPH_WORDS]
        dots.append(draw(STREETS))
        for dot in dots:
            self.assertEqual(dot.count("{"), dot.count("}"))
        if shutil.which("dot"):
            for dot in dots:
                result = subprocess.run(["dot", "-Tsvg"], input=dot.encode(), capture_output=True, check=False)
                self.assertEqual((result.returncode, b"rror" in result.stderr), (0, False), dot)

    def test_a_matching_is_thick(self):
        dot = draw(TAIL, "matching 1 / size 1 / edge 4 c d / end")
        self.assertEqual(len(rows(dot, "penwidth")), 1)
        self.assertIn('"c" -- "d" [color="#0072b2", penwidth="4"]', dot)
        self.assertEqual([row[1] for row in rows(dot, 'style="dashed"')], ["a", "b"])

    def test_paths_have_their_colours(self):
        dot = draw("graph 1 / edge a b / edge c d / class a c / class b d", "paths 1 / count 2 / path a b / path c d / end")
        colours = {row.split('color="')[1][:7] for row in rows(dot, " -- ")}
        self.assertEqual(len(colours), 2)
        self.assertEqual(len(rows(dot, 'shape="box"')), 4)

    def test_triangles_are_filled(self):
        self.assertEqual(draw(BOW, "cactus 1 / size 2 / triangle a b c / triangle c d e / end").count(" P 3 "), 2)

    def test_darts_stand_in_their_order(self):
        """Counterclockwise, from dart to dart, by a quarter of a turn."""
        graph = read(LOOPS)
        reply = to_dot.read_rotation(to_dot.Text(text("rotation 1 / genus 1 / faces 1 / at a 1+ 2+ 1- 2- / end"), "reply"), graph)
        spots = to_dot.round_spots(graph, {"a": (0.0, 0.0)}, reply.turns[0])
        (a, b), (c, d) = spots["1+"], spots["2+"]
        self.assertAlmostEqual(a * d - b * c, a * a + b * b)

    def test_faces_are_listed(self):
        dot = draw(K4, "rotation 1 / genus 1 / faces 2 / at a 1+ 2+ 3+ / at b 1- 4+ 5+ / at c 2- 4- 6+ / at d 3- 5- 6- / end")
        self.assertEqual(dot.count("face 1:") + dot.count("face 2:"), 2)
        self.assertEqual(len(rows(dot, '"dart ')), 12 + 6)

    def test_arrows_follow_darts(self):
        dot = draw(CROSS, "edgepaths 1 / count 2 / path 1+ 4+ / path 2- 3- / end")
        self.assertEqual((dot.count('dir="forward"'), dot.count('dir="back"')), (2, 2))

    def test_names_are_quoted(self):
        self.assertIn('"a\\"\\\\" [label="a\\"\\\\"', draw('graph 1 / vertex a"\\'))

    def test_neighbours_are_placed_nearer(self):
        graph = read("graph 1 / edge a b / edge b c / edge c d / edge d e / edge e f")
        places = to_dot.spread(graph, 1.0)
        self.assertLess(abs(to_dot.math.dist(places["a"], places["b"]) - 1), 0.2)
        self.assertGreater(to_dot.math.dist(places["a"], places["f"]), 3.5)

    def test_given_places(self):
        graph = read("graph 1 / edge a b")
        places = to_dot.read_places(to_dot.Text(b"a 0 0 # home\nb 1 0.5\n", "places"), graph)
        self.assertIn('"b" [label="b", pos="72.0,36.0"]', to_dot.to_dot(graph, None, places))


class Faults(unittest.TestCase):
    REPLIES = [
        (TAIL, "answer 1 / size 0", "reply: line 1: only replies of graph commands can be drawn"),
        (TAIL, "matching 1 / size 1 / edge 9 a b / end", "reply: line 3: the graph has no edge 9"),
        (TAIL, "matching 1 / size 1 / edge 1 a z / end", "reply: line 3: the graph has no vertex z"),
        (BOW, "cactus 1 / size 1 / triangle a b d / end", "no edge joins a and d"),
        (LOOPS, "rotation 1 / genus 1 / faces 1 / at a 1+ 2+ / end", "without its reverse"),
        (TAIL, "matching 1 / size 0 / end / end", "reply: line 4: the text is at its end"),
        ("graph 1 / edge a", "matching 1 / size 0 / end", "graph: line 2: the line ends where a name is due"),
    ]
    PLACES = [
        (b"a 0 0\n", "line 2: there is no place for b"),
        (b"a 0 zero\n", "line 1: a coordinate is due, and 'zero' stands there"),
        (b"\nc 0 0\n", "line 2: the graph has no vertex c"),
    ]

    def test_replies(self):
        for graph, reply, piece in self.REPLIES:
            with self.subTest(reply=reply):
                self.assertIn(piece, fault(graph, reply))

    def test_places(self):
        for data, piece in self.PLACES:
            with self.assertRaisesRegex(to_dot.Fault, piece):
                to_dot.read_places(to_dot.Text(data, "places"), read("graph 1 / edge a b"))


class Commands(unittest.TestCase):
    BOW_TIE = ROOT / "examples" / "bow_tie.txt"

    def run_tool(self, *words, given=b"", **options):
        return subprocess.run([TOOLS / "to_dot", *words], input=given, capture_output=True, check=False, **options)

    def test_a_reply_from_standard_input(self):
        result = self.run_tool(self.BOW_TIE, "-", given=b"cactus 1\nsize 1\ntriangle a b c\nend\n")
        self.assertEqual((result.returncode, result.stdout[:7]), (0, b"graph {"))

    def test_a_picture(self):
        with tempfile.TemporaryDirectory() as folder:
            file = Path(folder) / "picture.svg"
            result = self.run_tool(self.BOW_TIE, "--svg", file)
            self.assertEqual(result.returncode == 0, shutil.which("dot") is not None)
            self.assertEqual(file.exists(), shutil.which("dot") is not None)

    def test_no_graphviz_is_said_in_a_line(self):
        command = [sys.executable, TOOLS / "to_dot", self.BOW_TIE, "--svg", "/nowhere/x.svg"]
        result = subprocess.run(command, capture_output=True, env={"PATH": "/nowhere"}, check=False)
        self.assertEqual((result.returncode, result.stderr.count(b"\n")), (2, 1))
        self.assertIn(b"graphviz isn't installed", result.stderr)

    def test_exit_codes(self):
        self.assertEqual(self.run_tool("/nowhere").returncode, 2)
        bad = self.run_tool(ROOT / "examples" / "star.txt")
        self.assertEqual((bad.returncode, b"star.txt: line 2: 'graph' is due" in bad.stderr), (2, True))

    def test_help(self):
        self.assertIn(b"--svg", self.run_tool("--help").stdout)


if __name__ == "__main__":
    unittest.main()
