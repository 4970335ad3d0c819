"""Inputs and replies of all commands, as the tests of each tool use them; lines are separated by ` / `."""

import importlib.machinery
import importlib.util
import sys
from pathlib import Path

ROOT = Path(__file__).resolve().parents[2]
TOOLS = ROOT / "tools"


def load(name):
    """A tool as a module; its file has no ending."""
    if name not in sys.modules:
        loader = importlib.machinery.SourceFileLoader(name, str(TOOLS / name))
        module = importlib.util.module_from_spec(importlib.util.spec_from_loader(name, loader))
        sys.modules[name] = module
        loader.exec_module(module)
    return sys.modules[name]


def text(lines):
    return "".join(f"{line}\n" for line in lines.split(" / ")).encode()


STAR = "parity 1 / field 2 / dimension 4 / lines 3 / line 1 0 0 0 | 0 1 0 0 / line 1 0 0 0 | 0 0 1 0 / line 1 0 0 0 | 0 0 0 1"
STAR2 = STAR.replace("parity 1", "parity 2")
PATH = "parity 2 / field 2 / dimension 6 / lines 5 / " + " / ".join(
    " ".join(["line", *("01"[i == j] for j in range(6)), "|", *("01"[i + 1 == j] for j in range(6))]) for i in range(5)
)
TRIANGLE = "parity 1 / field 2 / dimension 3 / lines 3 / line 1 0 0 | 0 1 0 / line 0 1 0 | 0 0 1 / line 1 0 0 | 0 0 1"
BYTES = "parity 1 / field 256 / dimension 2 / lines 1 / line 83 1 | 1 202"
FIVE = "parity 1 / field 5 / dimension 2 / lines 1 / line 1 2 | 2 4"
LARGE = "parity 1 / field 251 / dimension 2 / lines 1 / line 250 0 | 0 250"
STEP = "parity 1 / field 3 / dimension 4 / lines 3 / line 1 0 0 0 | 0 1 0 0 / line 2 0 0 0 | 0 0 1 0 / line 0 2 0 0 | 0 0 1 1"
ANSWER = "answer 1 / size 1 / set 2 / kernel 1 / vector 1 0 0 0 / parts 3 / part 1 / part 2 / part 3 / end"
ANSWER2 = "answer 1 / size 1 / set 2 / kernel 2 / vector 1 0 0 0 / vector 0 0 1 0 / parts 3 / part 1 / part 2 / part 3 / end"
PARTS = "parts 3 / part 1 / part 2 / part 3"
ONE_PART = "parts 1 / part 1 2 3"
ONE = "choice 1 / size 1 / set 1 / end"

K4 = "graph 1 / edge a b / edge a c / edge a d / edge b c / edge b d / edge c d"
K33 = "graph 1 / " + " / ".join(f"edge {a} {b}" for a in "abc" for b in "def")
LINK = "graph 1 / edge a b / edge b c / edge c d / edge d e"
LOOPS = "graph 1 / edge a a / edge a a"
BOW = "graph 1 / edge a b / edge b c / edge c a / edge c d / edge d e / edge e c"
TAIL = "graph 1 / edge a b / edge b c / edge c a / edge c d / edge a a / edge a b"
STREETS = "graph 1 / edge a c / edge b c / edge d c / edge x y / class a / class b / class d"
CROSS = "graph 1 / edge a x / edge x b / edge c x / edge x d / class a c / class b d"
TWIN = "graph 1 / edge a b / edge a b / class a / class b"
K4_CLASSES = K4 + " / class a / class b / class c / class d"
STREETS_PROBLEM = (
    "# offset 2 / parity 1 / field 251 / dimension 9 / lines 4"
    " / line 0 250 0 0 0 0 0 0 0 | 1 0 250 0 0 0 0 0 0 / line 0 250 0 250 0 0 0 0 0 | 0 0 250 1 0 0 0 0 0"
    " / line 0 250 0 0 249 0 0 0 0 | 0 0 250 0 1 0 0 0 0 / line 0 0 0 0 0 1 0 250 0 | 0 0 0 0 0 0 1 0 250"
)

BEFORE = "# offset 0 / parity 1 / field 2 / "

# The words of a command, what it reads, and a reply that is right.
GOOD = [
    ("solve", "parity 1 / field 2 / dimension 0 / lines 0", "answer 1 / size 0 / set / kernel 0 / parts 0 / end"),
    ("solve", STAR, ANSWER),
    ("solve", TRIANGLE, "answer 1 / size 1 / set 3 / kernel 0 / parts 1 / part 1 2 3 / end"),
    ("solve", BYTES, "answer 1 / size 0 / set / kernel 0 / parts 1 / part 1 / end"),
    ("solve", LARGE, "answer 1 / size 1 / set 1 / kernel 0 / parts 1 / part 1 / end"),
    ("solve", STAR2 + " / required 2 / forbidden", ANSWER2),
    ("solve", PATH + " / required / forbidden 3", "answer 1 / size 2 / set 1 4 / kernel 0 / parts 2 / part 1 2 3 / part 4 5 / end"),
    ("solve", PATH + " / required 1 2 / forbidden", "impossible / relation 0 1 1 0"),
    ("check", STAR + " / " + ANSWER, "yes"),
    ("check", STAR + " / " + ANSWER.replace("size 1 / set 2", "size 2 / set 1 2"), "no dependent"),
    ("check", STAR + " / " + ANSWER.replace("part 1 /", "part 1 3 /"), "no twice 3"),
    ("check", STAR2 + " / required 2 / forbidden / " + ANSWER2, "yes"),
    ("check", STAR2 + " / required 2 / forbidden / " + ANSWER2.replace("set 2", "set 1"), "no required 2"),
    ("check", STAR2 + " / required 2 / forbidden / " + ANSWER, "no kernel lacks 2"),
    ("check", STAR2 + " / required / forbidden 2 / " + ANSWER2, "no forbidden 2"),
    ("check", STAR2 + " / required 2 / forbidden / " + ANSWER2.replace(PARTS, ONE_PART), "no bound 1 2"),
    ("improve", STEP + " / " + ONE, "choice 1 / size 2 / set 2 3 / end"),
    ("improve", STAR + " / " + ONE, "none"),
    ("improve", BYTES + " / " + ONE, "no dependent / relation 1 83"),
    ("improve", FIVE + " / " + ONE, "no dependent / relation 1 2"),
    ("improve", PATH + " / required 2 / forbidden / choice 1 / size 1 / set 4 / end", "no required 2"),
    ("improve", PATH + " / required 2 / forbidden / choice 1 / size 1 / set 2 / end", "choice 1 / size 2 / set 2 5 / end"),
    ("improve", PATH + " / required 2 / forbidden / choice 1 / size 2 / set 2 4 / end", "none"),
    ("core", STAR, "core 1 / size 1 / rank 1 / vector 1 0 0 0 / end"),
    ("core", TRIANGLE, "core 1 / size 1 / rank 0 / end"),
    ("core", STAR2 + " / required 2 / forbidden", "core 1 / size 1 / rank 2 / vector 1 0 0 0 / vector 0 0 1 0 / end"),
    ("core", PATH + " / required 1 2 / forbidden", "impossible / relation 0 1 1 0"),
    ("matching", TAIL, "matching 1 / size 2 / edge 1 a b / edge 4 c d / end"),
    ("spaths", STREETS, "paths 1 / count 1 / path a c b / end"),
    ("spaths", "graph 1 / edge a x / edge x b / class a b", "paths 1 / count 0 / end"),
    ("cactus", BOW, "cactus 1 / size 2 / triangle a b c / triangle c d e / end"),
    ("genus", LOOPS, "rotation 1 / genus 1 / faces 1 / at a 1+ 2+ 1- 2- / end"),
    ("genus", "graph 1 / edge a a / edge a b / edge b b", "rotation 1 / genus 0 / faces 3 / at a 1+ 1- 2+ / at b 2- 3+ 3- / end"),
    ("genus", K4, "rotation 1 / genus 1 / faces 2 / at a 1+ 2+ 3+ / at b 1- 4+ 5+ / at c 2- 4- 6+ / at d 3- 5- 6- / end"),
    ("genus", "graph 1 / vertex a", "rotation 1 / genus 0 / faces 1 / at a / end"),
    ("genus", "graph 1", "rotation 1 / genus 0 / faces 0 / end"),
    ("epaths", CROSS, "edgepaths 1 / count 2 / path 1+ 4+ / path 2- 3- / end"),
    ("epaths", TWIN, "edgepaths 1 / count 2 / path 1+ / path 2+ / end"),
    ("epaths", K4_CLASSES, "edgepaths 1 / count 6 / path 1+ / path 2+ / path 3+ / path 4+ / path 5+ / path 6+ / end"),
    ("feedback", K4, "feedback 1 / size 2 / vertices a c / end"),
    ("feedback", K33, "feedback 1 / size 2 / vertices a b / end"),
    ("feedback", "graph 1", "feedback 1 / size 0 / vertices / end"),
    ("forestpairs", LINK, "pairs 1 / size 2 / pair 1 1 2 / pair 2 3 4 / end"),
    ("sparepairs", LINK, "pairs 1 / size 0 / end"),
    ("sparepairs", "graph 1 / edge a b / edge a b / edge a b", "pairs 1 / size 1 / pair 1 1 2 / end"),
    ("convert matching", "graph 1 / edge a b / edge b b", BEFORE + "dimension 2 / lines 2 / line 1 0 | 0 1 / line 0 1 | 0 1"),
    ("convert cactus", "graph 1 / edge a b / edge b c / edge c a", BEFORE + "dimension 3 / lines 1 / line 1 1 0 | 0 1 1"),
    ("convert genus", LOOPS, BEFORE + "dimension 2 / lines 1 / line 1 0 | 0 1"),
    ("convert spaths", STREETS, STREETS_PROBLEM),
    ("sample 7", "", "sample 7 / dimension 60 / lines 150 / size 28"),
]


def examples():
    """The rows of the repository's examples that have a reply."""
    for row in (ROOT / "examples" / "expected.txt").read_text().splitlines():
        if row.strip() and not row.startswith("#"):
            words, file, _, _, reply = (part.strip() for part in row.split("|", 4))
            if reply:
                yield words, (ROOT / "examples" / file).read_bytes(), text(reply)
