"""Round trips of problems, answers, choices and graphs; every reply as JSON; and what is wrong with bad texts."""

import json
import subprocess
import unittest

from samples import ANSWER, BOW, GOOD, PATH, ROOT, STAR, STREETS, STREETS_PROBLEM, TOOLS, examples, load, text

to_json = load("to_json")


def forth(data):
    return to_json.convert(data, "input", False)


def back(data):
    return to_json.convert(data, "input", True)


def fault(convert, data):
    try:
        convert(data)
    except to_json.Fault as found:
        return str(found)
    return "nothing is wrong"


class RoundTrips(unittest.TestCase):
    def test_problems_answers_and_choices(self):
        for words, given, reply in GOOD:
            for lines in (given, reply):
                if lines.startswith(("parity", "answer", "choice", "# offset")):
                    with self.subTest(lines=lines):
                        self.assertEqual(back(forth(text(lines)).encode()).encode(), text(lines))

    def test_graphs_keep_their_numbers(self):
        lines = "graph 1 / vertex q / edge a b / edge b a / vertex r / class r / class a q"
        data = forth(text(lines))
        self.assertEqual(forth(back(data.encode()).encode()), data)

    def test_examples(self):
        """Comments are lost, and so are files with a fault; all else comes back."""
        for file in sorted((ROOT / "examples").glob("*.txt")):
            data = file.read_bytes()
            if file.name not in ("expected.txt", "bad_entry.txt") and not data.startswith(b"graph"):
                bare = b"".join(line for line in data.splitlines(True) if not line.startswith(b"#"))
                with self.subTest(file=file.name):
                    self.assertEqual(back(forth(data).encode()).encode(), bare)

    def test_left_out_sizes_are_made(self):
        self.assertEqual(back(b'{"kind": "choice", "set": [2, 3]}'), "choice 1\nsize 2\nset 2 3\nend\n")

    def test_version_2_is_written_for_its_lists(self):
        problem = '{"kind": "problem", "field": 2, "dimension": 0, "lines": [{"first": [], "second": []}], "required": [1]}'
        self.assertEqual(back(problem.encode()).splitlines()[-3:], ["line |", "required 1", "forbidden"])


class Replies(unittest.TestCase):
    def test_each_reply(self):
        for words, _, reply in GOOD:
            with self.subTest(words=words, reply=reply):
                self.assertIn("kind", json.loads(forth(text(reply))))

    def test_examples(self):
        for words, _, reply in examples():
            with self.subTest(words=words):
                self.assertIn("kind", json.loads(forth(reply)))

    def test_members(self):
        self.assertEqual(json.loads(forth(b"no bound 1 2\n")), {"kind": "verdict", "says": "no", "reason": "bound", "size": 1, "bound": 2})
        rotation = json.loads(forth(b"rotation 1\ngenus 0\nfaces 2\nat a 1+ 1-\nend\n"))
        self.assertEqual(rotation["turns"], [{"vertex": "a", "darts": ["1+", "1-"]}])
        self.assertEqual(json.loads(forth(text(STREETS_PROBLEM)))["offset"], 2)
        self.assertEqual(json.loads(forth(text(STREETS)))["classes"], [["a"], ["b"], ["d"]])


class Faults(unittest.TestCase):
    TEXTS = [
        ("", "line 1: the text is empty"),
        ("hello 1", "line 1: 'hello' begins no reply"),
        (STAR.replace("field 2", "field 4"), "line 2: there is no field of order 4"),
        (STAR.replace("parity 1", "parity 3"), "line 1: version 3 isn't known"),
        (STAR.replace("0 0 0 1", "0 0 1"), "line 7: the line ends where a number is due"),
        (STAR + " / line", "line 8: the text is at its end, and 'line' follows"),
        (STAR.replace("lines 3", "lines 4"), "line 8: the text ends where a line 'line ..' is due"),
        (PATH + " / required 1 2 / forbidden 2", "line 11: line 2 is required and can't be forbidden"),
        (PATH + " / required 2 1 / forbidden", "line 10: positions increase, and 1 follows 2"),
        (STAR + " / " + ANSWER.replace("part 3", "part 4"), "line 16: there is no line 4 among 3"),
        (ANSWER.replace("size 1", "size 2"), "line 3: the size is 2, and 1 positions stand there"),
        (BOW.replace("edge c d", "edge c"), "line 5: the line ends where a name is due"),
        (STREETS + " / class a", "line 9: a already stands in a class"),
        ("matching 1 / size 1 / edge x a b / end", "line 3: a number of 1 to 9 digits is due, and 'x' stands there"),
        ("rotation 1 / genus 0 / faces 2 / at a 1+ 0- / end", "line 4: a dart such as 1+ or 1- is due"),
        ("graph 1 / edge a \u00e9", "line 2: the byte 0xc3 can't stand outside of a comment"),
        ("no kernel matters", "line 1: 'no kernel matters' is no reply"),
    ]
    PROBLEM = '{"kind": "problem", "field": 2,\n"dimension": 1, "lines": [\n'
    JSONS = [
        ('{"kind": "choice",\n "set": [1,\n 1]}', "line 3: set[1]: positions increase from 1, and 1 stands there"),
        ('{"kind": "choice",\n "set" [1]}', "line 2: this isn't JSON"),
        ('{"kind": "matching"}', "line 1: kind: problem, choice, answer, graph are written"),
        (PROBLEM + '{"first": [0], "second": [2]}]}', "line 3: lines[0].second[0]: a number from 0 to 1 is due"),
        (PROBLEM + '{"first": [0]}]}', "line 3: lines[0]: the object has no second"),
        ('{"kind": "graph", "vertices": ["a"],\n"edges": [["a", "b c"]]}', "line 2: edges[0][1]: a word of at most 32 bytes is due"),
        ('[{"kind": "choice", "set": []},\n3]', "line 2: [1]: an object is due"),
        ("[" * 100000, "line 1: this"),
    ]

    def test_texts(self):
        for lines, piece in self.TEXTS:
            with self.subTest(lines=lines):
                self.assertIn(piece, fault(forth, text(lines) if lines else b""))

    def test_jsons(self):
        for data, piece in self.JSONS:
            with self.subTest(data=data[:80]):
                self.assertIn(piece, fault(back, data.encode()))

    def test_bytes_that_are_not_utf_8(self):
        self.assertIn("line 2: the bytes aren't UTF-8", fault(back, b"{\n\xff}"))


class Commands(unittest.TestCase):
    def run_tool(self, *words, given=b""):
        return subprocess.run([TOOLS / "to_json", *words], input=given, capture_output=True, check=False)

    def test_exit_codes(self):
        there = self.run_tool(ROOT / "examples" / "star.txt")
        self.assertEqual((there.returncode, self.run_tool("--back", given=there.stdout).returncode), (0, 0))
        self.assertEqual(self.run_tool("/nowhere").returncode, 2)
        bad = self.run_tool(ROOT / "examples" / "bad_entry.txt")
        self.assertEqual((bad.returncode, b"bad_entry.txt: line 5" in bad.stderr), (2, True))

    def test_help(self):
        self.assertIn(b"--back", self.run_tool("--help").stdout)


if __name__ == "__main__":
    unittest.main()
