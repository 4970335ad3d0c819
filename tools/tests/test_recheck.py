"""Right replies are seen to be right, and each of many broken ones to be wrong."""

import subprocess
import unittest

from samples import ANSWER, BOW, BYTES, CROSS, GOOD, K4, K33, LINK, LOOPS, ONE, PATH, ROOT, STAR, STAR2, STEP, STREETS
from samples import STREETS_PROBLEM, TAIL, TOOLS, TRIANGLE, TWIN, examples, load, text

recheck = load("recheck")


def verdict(words, given, reply, answer=None, steps=20000):
    """Nothing and what was seen, or what is wrong."""
    named = ((given, "input"), (reply, "reply"), (answer, "answer"))
    texts = [None if data is None else recheck.Text(data, name, name == "reply") for data, name in named]
    try:
        return None, recheck.run(words.split(), recheck.Given(*texts, steps))
    except (recheck.Wrong, recheck.Fault) as wrong:
        return str(wrong), None


LOOP = "graph 1 / edge a x / edge x x / edge x b / class a / class b"
HELD = " / required 2 / forbidden"

# A command, its input, a wrong reply, and a piece of what is said against it.
BROKEN = [
    ("solve", STAR, ANSWER.replace("set 2", "set 2 3").replace("size 1", "size 2"), "no dependent"),
    ("solve", STAR, ANSWER.replace("vector 1 0 0 0", "vector 0 1 0 0"), "no bound 1 3"),
    ("solve", STAR, ANSWER.replace("part 3", "part 2"), "no missing 3"),
    ("solve", STAR, ANSWER.replace("kernel 1 / vector 1 0 0 0", "kernel 2 / vector 1 0 0 0 / vector 1 0 0 0"), "no kernel dependent"),
    ("solve", STAR, ANSWER.replace("part 1 / part 2", "part 2 / part 1"), "least positions"),
    ("solve", STAR, ANSWER.replace("vector 1 0 0 0", "vector 2 0 0 0"), "reply: line 5: 2 isn't below 2"),
    ("solve", STAR, ANSWER.replace("set 2", "set 02"), "leading zeros"),
    ("solve", STAR, ANSWER.replace("set 2", "set  2"), "one space"),
    ("solve", STAR, ANSWER + " / end", "the text is at its end"),
    ("solve", STAR, ANSWER.replace(" / end", ""), "reply: line 10: the text ends"),
    ("solve", STAR2 + " / required 2 / forbidden", ANSWER, "no kernel lacks 2"),
    ("solve", STAR2 + " / required / forbidden 2", ANSWER, "no forbidden 2"),
    ("solve", PATH + " / required 1 2 / forbidden", "impossible / relation 0 1 0 1", "add up to"),
    ("solve", PATH + " / required 2 / forbidden", "impossible / relation 1 1", "'answer' is due"),
    ("check", STAR + " / " + ANSWER, "no bound 1 2", "`yes` is due"),
    ("check", STAR + " / " + ANSWER.replace("size 1 / set 2", "size 2 / set 1 2"), "yes", "`no dependent` is due"),
    ("check", STAR + " / " + ANSWER, "yes / yes", "1 lines are due"),
    ("improve", STEP + " / " + ONE, "choice 1 / size 2 / set 1 2 / end", "no dependent"),
    ("improve", STEP + " / " + ONE, "choice 1 / size 1 / set 2 / end", "has 1 lines"),
    ("improve", STEP + " / " + ONE, "none", "[2, 3] is one step away"),
    ("improve", PATH + " / required / forbidden / choice 1 / size 2 / set 2 4 / end", "choice 1 / size 3 / set 1 3 5 / end", "are gone"),
    ("improve", BYTES + " / " + ONE, "no dependent / relation 1 82", "add up to"),
    ("improve", BYTES + " / " + ONE, "no dependent / relation 202 1", "first number"),
    ("improve", BYTES + " / " + ONE, "none", "`no dependent` applies"),
    ("core", STAR, "core 1 / size 1 / rank 2 / vector 1 0 0 0 / vector 1 1 0 0 / end", "reduced echelon"),
    ("core", STAR2 + HELD, "core 1 / size 1 / rank 2 / vector 1 0 0 1 / vector 0 0 1 0 / end", "doesn't span the required lines"),
    ("matching", TAIL, "matching 1 / size 2 / edge 1 a b / edge 2 b c / end", "b is an end twice"),
    ("matching", TAIL, "matching 1 / size 1 / edge 5 a a / end", "a is an end twice"),
    ("matching", TAIL, "matching 1 / size 2 / edge 1 b a / edge 4 c d / end", "has the ends a b"),
    ("matching", TAIL, "matching 1 / size 2 / edge 4 c d / edge 6 a b / edge 1 a b / end", "'end' is due"),
    ("matching", TAIL, "matching 1 / size 2 / edge 4 c d / edge 1 a b / end", "in their order"),
    ("matching", TAIL, "matching 1 / size 1 / edge 7 a b / end", "reply: line 3: the graph has no edge 7"),
    ("spaths", STREETS, "paths 1 / count 1 / path a b / end", "no edge joins a and b"),
    ("spaths", STREETS, "paths 1 / count 1 / path b c a / end", "greater number"),
    ("spaths", STREETS, "paths 1 / count 1 / path a c / end", "c is the end of a path and no terminal"),
    ("spaths", STREETS, "paths 1 / count 2 / path a c b / path a c d / end", "is passed twice"),
    ("spaths", CROSS, "paths 1 / count 1 / path a x c / end", "of one class"),
    ("cactus", K4, "cactus 1 / size 2 / triangle a b c / triangle a b d / end", "cycle is closed by the triangle a b d"),
    ("cactus", BOW, "cactus 1 / size 1 / triangle a b d / end", "no edge joins a and d"),
    ("cactus", BOW, "cactus 1 / size 1 / triangle b a c / end", "by their numbers"),
    ("genus", LOOPS, "rotation 1 / genus 1 / faces 1 / at a 1+ 1- 2+ 2- / end", "traces 3 faces, not 1"),
    ("genus", LOOPS, "rotation 1 / genus 2 / faces 1 / at a 1+ 2+ 1- 2- / end", "gives the genus 1, not 2"),
    ("genus", LOOPS, "rotation 1 / genus 1 / faces 1 / at a 2+ 1- 2- 1+ / end", "begin with the least"),
    ("genus", LOOPS, "rotation 1 / genus 0 / faces 1 / at a 1+ 1- / end", "isn't held"),
    ("genus", "graph 1 / edge a b", "rotation 1 / genus 0 / faces 1 / at a 1- / at b 1+ / end", "doesn't leave a"),
    ("genus", "graph 1 / edge a b / vertex c", "rotation 1 / genus 0 / faces 2 / at a 1+ / at b 1- / at c / end", "isn't connected"),
    ("epaths", CROSS, "edgepaths 1 / count 2 / path 1+ 2+ / path 2- 3- / end", "edge 2 is passed twice"),
    ("epaths", CROSS, "edgepaths 1 / count 1 / path 1+ 3+ / end", "doesn't leave the vertex"),
    ("epaths", CROSS, "edgepaths 1 / count 1 / path 1+ 3- / end", "of one class"),
    ("epaths", CROSS, "edgepaths 1 / count 2 / path 2- 3- / path 1+ 4+ / end", "in their order"),
    ("epaths", LOOP, "edgepaths 1 / count 1 / path 1+ 2+ 3+ / end", "passes a vertex twice"),
    ("epaths", TWIN, "edgepaths 1 / count 1 / path 1- / end", "greater number"),
    ("feedback", K4, "feedback 1 / size 1 / vertices a / end", "a cycle is left with the edge"),
    ("feedback", K4, "feedback 1 / size 2 / vertices c a / end", "by their numbers"),
    ("feedback", K4, "feedback 1 / size 2 / vertices a a / end", "by their numbers"),
    ("feedback", BOW, "feedback 1 / size 1 / vertices c / end", "isn't cubic"),
    ("forestpairs", K4, "pairs 1 / size 2 / pair 1 1 2 / pair 2 3 4 / end", "edge 4 closes a cycle"),
    ("forestpairs", LINK, "pairs 1 / size 1 / pair 1 1 3 / end", "pair 1 isn't the edges 1 and 3"),
    ("sparepairs", LINK, "pairs 1 / size 1 / pair 1 1 2 / end", "falls into 3 pieces"),
    ("convert spaths", STREETS, STREETS_PROBLEM.replace("offset 2", "offset 3"), "line 1 of the reply"),
    ("convert spaths", STREETS, STREETS_PROBLEM.replace("249", "248"), "line 8 of the reply"),
    ("sample 7", None, "sample 8 / dimension 60 / lines 150 / size 28", "is due, not"),
    ("sample 7", None, "sample 7 / dimension 60 / lines 150 / size 29", "above 28"),
]


class Replies(unittest.TestCase):
    def test_right_replies(self):
        for words, given, reply in GOOD:
            with self.subTest(words=words, reply=reply):
                self.assertIsNone(verdict(words, text(given), text(reply))[0])

    def test_examples(self):
        for words, given, reply in examples():
            with self.subTest(words=words, reply=reply):
                self.assertIsNone(verdict(words, given, reply)[0])

    def test_broken_replies(self):
        for words, given, reply, piece in BROKEN:
            with self.subTest(words=words, reply=reply):
                self.assertIn(piece, verdict(words, text(given or ""), text(reply))[0] or "nothing is wrong")

    def test_each_command_is_broken(self):
        whole = {words for words, *_ in GOOD} - {words for words, *_ in BROKEN}
        self.assertEqual(whole, {"convert matching", "convert cactus", "convert genus"})

    def test_a_reply_without_its_last_line_end(self):
        self.assertIn("LF", verdict("check", text(STAR + " / " + ANSWER), b"yes")[0])

    def test_an_empty_reply(self):
        self.assertIsNotNone(verdict("solve", text(STAR), b"")[0])


class Answers(unittest.TestCase):
    """An answer to the problem behind a graph shows that a reply is the best, or that it isn't."""

    def test_matching(self):
        graph = "graph 1 / edge a b / edge b c / edge c a"
        answer = text("answer 1 / size 1 / set 1 / kernel 0 / parts 1 / part 1 2 3 / end")
        wrong, report = verdict("matching", text(graph), text("matching 1 / size 1 / edge 2 b c / end"), answer)
        self.assertIsNone(wrong)
        self.assertIn("it shows that no other reply is larger", report.saw)
        self.assertIn("1 is the best, not 0", verdict("matching", text(graph), text("matching 1 / size 0 / end"), answer)[0])

    def test_paths_by_the_offset(self):
        answer = text("answer 1 / size 3 / set 1 2 4 / kernel 0 / parts 2 / part 1 2 3 / part 4 / end")
        reply = text("paths 1 / count 1 / path a c d / end")
        self.assertIsNone(verdict("spaths", text(STREETS), reply, answer)[0])

    def test_feedback_by_the_genus(self):
        problem = recheck.genus_problem(recheck.Ends(recheck.read_graph(recheck.Text(text(K4), "graph"))))
        parts = " ".join(str(i + 1) for i in range(len(problem.lines)))
        answer = text(f"answer 1 / size 1 / set 1 / kernel 0 / parts 1 / part {parts} / end")
        self.assertIsNone(verdict("feedback", text(K4), text("feedback 1 / size 2 / vertices a b / end"), answer)[0])
        larger = text("feedback 1 / size 3 / vertices a b c / end")
        self.assertIn("2 is the best, not 3", verdict("feedback", text(K4), larger, answer)[0])

    def test_core_between_kernel_and_set(self):
        def core(vectors):
            return verdict("core", text(STAR), text(f"core 1 / size 1 / {vectors} / end"), text(ANSWER))[0]

        self.assertIsNone(core("rank 1 / vector 1 0 0 0"))
        self.assertIn("the core doesn't span the answer's kernel", core("rank 0"))
        self.assertIn("the core doesn't lie in the span of the answer's set", core("rank 2 / vector 1 0 0 0 / vector 0 1 0 0"))

    def test_an_answer_that_is_not_good(self):
        answer = text("answer 1 / size 0 / set / kernel 0 / parts 1 / part 1 2 3 / end")
        reply = text("core 1 / size 1 / rank 0 / end")
        self.assertIn("no bound 0 1", verdict("core", text(TRIANGLE), reply, answer)[0])


class Arithmetic(unittest.TestCase):
    def test_fields(self):
        for order in (2, 3, 5, 251, 256):
            field = recheck.Field(order)
            for a in range(1, order):
                self.assertEqual(field.times(a, field.inverse(a)), 1)

    def test_bytes(self):
        self.assertEqual(recheck.carryless(0x53, 0xCA), 1)
        self.assertEqual(recheck.carryless(0x57, 0x83), 0xC1)

    def test_generated_problem(self):
        first = recheck.generated(7).lines[0]
        self.assertEqual([i + 1 for i in range(60) if first.first[i]], [6, 9, 11])
        self.assertEqual([i + 1 for i in range(60) if first.second[i]], [2, 4, 5, 7, 8, 9])
        self.assertEqual(len(recheck.generated(7).lines), 150)

    def test_conversions_keep_the_largest_number(self):
        """Independent lines of the problem of genus are disjoint pairs without which the graph is connected."""
        ends = recheck.Ends(recheck.read_graph(recheck.Text(text(K33), "graph")))
        problem = recheck.genus_problem(ends)
        pairs = ends.adjacent_pairs()
        for i, (e, f) in enumerate(pairs[:10], 1):
            for j, (g, h) in enumerate(pairs[10:], 11):
                apart = len({e, f, g, h}) == 4 and ends.components(frozenset((e, f, g, h))) == 1
                self.assertEqual(recheck.is_independent(problem, [i, j]), apart)


class Commands(unittest.TestCase):
    def run_tool(self, *words, given=b""):
        return subprocess.run([TOOLS / "recheck", *words], input=given, capture_output=True, check=False)

    def test_exit_codes(self):
        star = ROOT / "examples" / "star.txt"
        self.assertEqual(self.run_tool("check", "-i", star, given=b"yes\n").returncode, 0)
        self.assertEqual(self.run_tool("check", "-i", star, given=b"no dependent\n").returncode, 1)
        self.assertEqual(self.run_tool("check", "-i", "/nowhere", given=b"yes\n").returncode, 2)
        self.assertEqual(self.run_tool("check", given=b"yes\n").returncode, 2)
        self.assertEqual(self.run_tool("another", "-i", star).returncode, 2)
        self.assertEqual(self.run_tool("generate", "007").returncode, 2)
        self.assertEqual(self.run_tool("check", "-i", star, "-a", star, given=b"yes\n").returncode, 2)
        self.assertEqual(self.run_tool("check", "-i", "-", given=b"yes\n").returncode, 2)

    def test_what_is_wrong_is_told(self):
        star = ROOT / "examples" / "star.txt"
        self.assertEqual(self.run_tool("solve", "-i", star, given=b"yes\n").returncode, 2)
        star = ROOT / "examples" / "solve_star.txt"
        result = self.run_tool("solve", "-i", star, given=b"answer 2\n")
        self.assertEqual((result.returncode, result.stdout), (1, b"wrong: standard input: line 1: version 2 isn't known\n"))

    def test_a_bad_input_tells_its_line(self):
        result = self.run_tool("solve", "-i", ROOT / "examples" / "bad_entry.txt", given=b"none\n")
        self.assertEqual(result.returncode, 2)
        self.assertIn(b"bad_entry.txt: line 5: 251 isn't below 251", result.stderr)

    def test_help(self):
        self.assertIn(b"--answer", self.run_tool("--help").stdout)


class Program(unittest.TestCase):
    """The replies of the built program itself, where it is built."""

    PROGRAM = ROOT / "crates" / "parity" / "out" / "parity"

    def reply(self, words, given=b""):
        return subprocess.run([self.PROGRAM, *words.split()], input=given, capture_output=True, check=False)

    def test_replies_of_the_program(self):
        if not self.PROGRAM.exists():
            self.skipTest("the program isn't built")
        for words, given, _ in GOOD:
            result = self.reply(words, text(given))
            with self.subTest(words=words, given=given):
                if result.returncode != 2 and not (result.returncode == 3 and given.startswith("parity 2")):
                    self.assertIsNone(verdict(words, text(given), result.stdout)[0])

    def test_a_solved_problem_of_the_generator(self):
        if not self.PROGRAM.exists():
            self.skipTest("the program isn't built")
        problem = self.reply("generate 7").stdout
        self.assertIsNone(verdict("generate 7", None, problem)[0])
        self.assertIsNone(verdict("solve", problem, self.reply("solve", problem).stdout)[0])


if __name__ == "__main__":
    unittest.main()
