"""Graphs in each form that is read, their classes and names, and what is wrong with bad files."""

import subprocess
import tempfile
import unittest
from pathlib import Path

from samples import TOOLS, load

to_text = load("to_text")

PETERSEN = b"IheA@GUAo\n"
GRAPHML = b"""<?xml version='1.0' encoding='utf-8'?>
<graphml xmlns="http://graphml.graphdrawing.org/xmlns">
  <key id="d0" for="node" attr.name="team" attr.type="string" />
  <graph edgedefault="undirected">
    <node id="Main Street"><data key="d0">red</data></node>
    <node id="b"><data key="d0">blue</data></node>
    <node id="c" />
    <edge source="Main Street" target="c" />
    <edge source="c" target="b"><data key="d0">no vertex</data></edge>
  </graph>
</graphml>
"""
NODE_LINK = b"""{"directed": false, "multigraph": false, "graph": {},
 "nodes": [{"team": "red", "id": 0}, {"id": 1}, {"team": "blue", "id": 2}],
 "links": [{"source": 0, "target": 1},
           {"source": 1, "target": 2}]}
"""


def lines(data, form=None, which=1, attribute=None):
    source = to_text.to_text(data, form, which)
    classes = to_text.classes_by_attribute(source, attribute) if attribute else []
    return to_text.text_of(source, to_text.named(source)[0], classes).splitlines()


def fault(data, form=None, which=1):
    try:
        to_text.to_text(data, form, which)
    except to_text.Fault as found:
        return str(found)
    return "nothing is wrong"


class Forms(unittest.TestCase):
    def test_graph6(self):
        edges = [line.split()[1:] for line in lines(PETERSEN)[1:]]
        self.assertEqual(len(edges), 15)
        self.assertEqual({sum(v in edge for edge in edges) for v in "0123456789"}, {3})
        self.assertEqual(lines(b"DQc"), ["graph 1", "vertex 0 1 2 3 4", "edge 0 2", "edge 1 3", "edge 0 4", "edge 3 4"])
        self.assertEqual(lines(b">>graph6<<@\n"), ["graph 1", "vertex 0"])

    def test_a_graph_of_several(self):
        self.assertEqual(lines(PETERSEN + b"A_\n", None, 2), ["graph 1", "edge 0 1"])

    def test_sparse6(self):
        self.assertEqual(lines(b":Fa@x^\n"), ["graph 1", "vertex 0 1 2 3 4 5 6", "edge 0 1", "edge 0 2", "edge 1 2", "edge 5 6"])
        self.assertEqual(lines(b">>sparse6<<:An\n"), ["graph 1", "edge 0 1"])

    def test_dimacs(self):
        self.assertEqual(lines(b"c a path\np edge 3 2\ne 1 2\ne 2 3\n"), ["graph 1", "edge 1 2", "edge 2 3"])
        self.assertEqual(to_text.to_text(b"p col 2 5\ne 1 2\n", None).notes, ["the head tells 5 edges, and 1 stand there"])

    def test_edges(self):
        self.assertEqual(lines(b"# roads\na b # one\r\n\r\nb c"), ["graph 1", "edge a b", "edge b c"])

    def test_graphml(self):
        due = ["graph 1", "vertex v1 b c", "edge v1 c", "edge c b", "class v1", "class b"]
        self.assertEqual(lines(GRAPHML, attribute="team"), due)

    def test_node_link(self):
        due = ["graph 1", "edge 0 1", "edge 1 2", "class 0", "class 2"]
        self.assertEqual(lines(NODE_LINK, attribute="team"), due)
        self.assertEqual(lines(NODE_LINK.replace(b"links", b"edges"), attribute="team"), due)

    def test_the_texts_are_read_by_the_other_tools(self):
        to_json = load("to_json")
        for data in (PETERSEN, b":Fa@x^\n", GRAPHML, NODE_LINK, b"a b\n"):
            text = "\n".join(lines(data)) + "\n"
            self.assertIn('"graph"', to_json.convert(text.encode(), "text", False))


class Names(unittest.TestCase):
    def test_words_are_kept_and_others_numbered(self):
        source = to_text.Source({"a": {}, "b c": {}, "v2": {}, "d#": {}, "e" * 33: {}, "": {}})
        names, table = to_text.named(source)
        self.assertEqual(list(names.values())[:2], ["a", "v2"])
        self.assertEqual([names[key] for key in source.vertices], ["a", "v2'", "v2", "v4", "v5", "v6"])
        self.assertEqual(table[:2], ["v2' = b c", "v4 = d#"])

    def test_limits_are_told(self):
        source = to_text.Source({v: {} for v in range(129)})
        self.assertIn("129 vertices", to_text.remarks(source, [])[0])


class Faults(unittest.TestCase):
    FILES = [
        ("graph6", b"\nIheA@GUA\n", "line 2: 10 vertices need 8 letters for their edges, and 7 stand there"),
        ("graph6", b"I he", "line 1: the letter ' ' at place 2"),
        ("graph6", b"~?", "line 1: the line ends within the number of vertices"),
        ("graph6", b"", "line 1: there are 0 graphs here"),
        ("sparse6", b"DQc", "line 1: a line of sparse6 begins with a colon"),
        ("dimacs", b"c x\ne 1 2\n", "line 2: a line `p edge N M` is due"),
        ("dimacs", b"p edge 2 1\ne 1 3\n", "line 2: there is no vertex 3 among 2"),
        ("dimacs", b"p edge 2 1\ne 1\n", "line 2: `e U V` is due"),
        ("dimacs", b"p edge two 1\n", "line 1: `p edge N M` is due"),
        ("edges", b"a b\n\na b c\n", "line 3: two names are due, and 3 stand there"),
        ("graphml", GRAPHML.replace(b'target="b"', b'target="z"'), "line 9: there is no node z"),
        ("graphml", GRAPHML.replace(b'target="b"', b""), "line 9: the element has no attribute target"),
        ("graphml", GRAPHML.replace(b"</graph>", b""), "line 11: this isn't XML"),
        ("graphml", b"<a/>", "line 1: there is no element `graph`"),
        ("json", NODE_LINK.replace(b'"target": 2', b'"target": 9'), "line 4: links[1].target: there is no node 9"),
        ("json", NODE_LINK.replace(b'{"id": 1}', b'{"id": 0}'), "line 2: nodes[1]: the id 0 stands twice"),
        ("json", NODE_LINK.replace(b"links", b"lonks"), "line 1: the whole: the object has no links or edges"),
        ("json", NODE_LINK.replace(b"[{", b"[", 1), "line 2: this isn't JSON"),
    ]

    def test_files(self):
        for form, data, piece in self.FILES:
            with self.subTest(form=form, data=data[:40]):
                self.assertIn(piece, fault(data, form))

    def test_classes(self):
        source = to_text.to_text(b"a b\n", None)
        for data, piece in ((b"a\n\nz\n", "line 3: z is no vertex"), (b"a b\n b\n", "line 2: b already stands in a class")):
            with self.assertRaisesRegex(to_text.Fault, piece):
                to_text.classes_of_file(data, source)


class Commands(unittest.TestCase):
    def run_tool(self, *words, given=b""):
        return subprocess.run([TOOLS / "to_text", *words], input=given, capture_output=True, check=False)

    def test_classes_from_a_file(self):
        with tempfile.TemporaryDirectory() as folder:
            file = Path(folder) / "classes"
            file.write_text("a c # east\n\nb\n")
            result = self.run_tool("--classes", file, given=b"a b\nb c\n")
        self.assertEqual(result.stdout, b"graph 1\nedge a b\nedge b c\nclass a c\nclass b\n")

    def test_a_table_of_names(self):
        result = self.run_tool("--class-attribute", "team", given=GRAPHML)
        self.assertEqual((result.returncode, result.stderr), (0, b"v1 = Main Street\n"))

    def test_exit_codes(self):
        self.assertEqual(self.run_tool("/nowhere").returncode, 2)
        bad = self.run_tool("--from", "edges", given=b"a\n")
        self.assertEqual((bad.returncode, bad.stderr), (2, b"to_text: standard input: line 1: two names are due, and 1 stand there\n"))

    def test_help(self):
        self.assertIn(b"graph6", self.run_tool("--help").stdout)


if __name__ == "__main__":
    unittest.main()
