"""The replies of the gallery are right and the best, as the answers beside them show, and docs/GALLERY.md quotes them."""

import unittest

from samples import ROOT, load

recheck = load("recheck")
GALLERY = ROOT / "docs" / "gallery"
COMMANDS = {"hub": "matching", "petersen": "matching", "streets": "spaths", "k5": "genus", "dodecahedron": "genus"}


class Gallery(unittest.TestCase):
    def text(self, file, written):
        return recheck.Text((GALLERY / file).read_bytes(), file, written)

    def test_replies_are_the_best(self):
        for name, command in COMMANDS.items():
            texts = (self.text(f"{name}.txt", False), self.text(f"{name}.reply", True), self.text(f"{name}.answer", True))
            with self.subTest(name=name):
                seen = recheck.run([command], recheck.Given(*texts, 0)).saw
                self.assertTrue(seen[-1].startswith("it shows that no"))

    def test_replies_are_quoted(self):
        page = (ROOT / "docs" / "GALLERY.md").read_text()
        for name in COMMANDS:
            reply = (GALLERY / f"{name}.reply").read_text()
            with self.subTest(name=name):
                self.assertIn("".join(f"    {line}\n" for line in reply.splitlines()), page)
                self.assertIn(f"(gallery/{name}.svg)", page)

    def test_pictures_show_all_vertices(self):
        for name in COMMANDS:
            picture = (GALLERY / f"{name}.svg").read_text()
            for vertex in recheck.read_graph(self.text(f"{name}.txt", False)).vertices:
                self.assertIn(f">{vertex}</text>", picture)


if __name__ == "__main__":
    unittest.main()
