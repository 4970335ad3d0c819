"""Each tool is one file, so some parts stand in several; they are the same, letter for letter."""

import re
import unittest

from samples import TOOLS

PART = re.compile(
    r"^# ---- (\w+): this part stands letter for letter in (.*) ----\n(.*?)^# ---- end of \1 ----\n", re.MULTILINE | re.DOTALL
)


class SharedParts(unittest.TestCase):
    def test_parts_are_the_same(self):
        found = {}
        for tool in ("to_text", "to_dot", "to_json", "recheck"):
            for part, where, body in PART.findall((TOOLS / tool).read_text()):
                self.assertIn(tool, re.split(r", | and ", where))
                found.setdefault((part, where), []).append(body)
        for (part, where), bodies in found.items():
            with self.subTest(part=part):
                self.assertEqual(len(bodies), len(re.split(r", | and ", where)))
                self.assertEqual(len(set(bodies)), 1)
        self.assertEqual({part for part, _ in found}, {"words", "problems", "verdicts", "graphs", "faces", "places"})


if __name__ == "__main__":
    unittest.main()
