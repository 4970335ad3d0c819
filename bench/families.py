"""The families of the benchmark: for each file its command and its text. All from fixed seeds, within the program's limits."""

import random
from dataclasses import dataclass

import graphs
import problems


@dataclass
class File:
    family: str
    name: str
    words: tuple
    text: str = ""
    # what the reply begins with, where that is known beforehand
    wanted: str = ""


def _spread(name, order, dimension, lines):
    for nonzero in (1.2, 2, 3, 6, 20):
        yield f"{name}, {nonzero} a vector", order, dimension, lines, nonzero / dimension
    yield f"{name}, dense", order, dimension, lines, 0.6


def samples(rng):
    for n in range(20):
        yield f"{7 * n}", ("sample", str(7 * n)), ""


def matchings(rng):
    for edges in (100, 110, 128, 160, 200, 256, 384, 512):
        yield f"{edges} random edges", 128, graphs.random_graph(rng, 128, edges)
    for i, back in enumerate((None, None, 3, 1)):
        yield f"tree {i}", 128, graphs.tree(rng, 128, back)
    yield "cubic", 128, graphs.cubic_graph(rng, 128)
    yield "torus", 128, graphs.torus(8, 16)
    yield "grid of 8 by 16", 128, graphs.grid(8, 16)
    yield "grid of 11 by 11", 121, graphs.grid(11, 11)
    yield "complete, 32 vertices", 32, graphs.complete(32)
    for length in (3, 5, 7, 9, 15, 31):
        yield f"cycles of {length} in a row", 128, graphs.flowers(127 // length, length)
    yield "42 triangles", 126, [edge for t in range(42) for edge in graphs.cycle(3, 3 * t)]
    for hub in (4, 10, 20):
        yield f"triangles on {hub} vertices", 128, graphs.hub_of_triangles(rng, hub, 128, 500)
    for left, edges in ((10, 300), (30, 300), (50, 512), (60, 512)):
        yield f"bipartite, {left} on one side", 128, graphs.bipartite(rng, left, 128, edges)
    for length in (9, 11):
        yield f"nested cycles of {length}", 128, graphs.blossoms(rng, length, 126)
    nested = "74 27 43 30 13 24 06 67 46 62 10"
    yield "eight vertices, nested", 8, [(int(e[0]), int(e[1])) for e in nested.split()]


def cacti(rng):
    for vertices in (20, 32, 40, 64, 100, 128):
        for edges in sorted({2 * vertices, 3 * vertices, 512}):
            if edges <= min(512, vertices * (vertices - 1) // 2):
                made = graphs.random_graph(rng, vertices, edges)
                if graphs.triangles(made) <= 2048:
                    yield f"{vertices} vertices, {edges} random edges", vertices, made
    yield "complete, 23 vertices", 23, graphs.complete(23)
    yield "strip", 128, graphs.strip(128)
    yield "wheel", 128, graphs.wheel(128)
    for vertices in (60, 100):
        yield f"grown from triangles, {vertices}", vertices, graphs.two_tree(rng, vertices)
    yield "triangulated torus", 120, graphs.triangulated_torus(10, 12)


def genera(rng):
    for vertices in (20, 40, 64, 86, 100, 128):
        for edges in (vertices + vertices // 3, vertices + vertices // 2, 2 * vertices, vertices + 127):
            if edges - vertices + 1 <= 128:
                yield f"{vertices} vertices, {edges} random edges", vertices, graphs.connected_graph(rng, vertices, edges)
    yield "cubic", 128, graphs.cubic_graph(rng, 128)
    yield "torus", 128, graphs.torus(8, 16)[:255]
    yield "complete, 16 vertices", 16, graphs.complete(16)
    yield "grid", 128, graphs.grid(8, 16)
    yield "cycles of 3 in a row", 126, graphs.flowers(42, 3)
    yield "cycles of 8 in a row", 120, graphs.flowers(15, 8)
    yield "complete on four, in a row", 128, graphs.chain_of_complete(32)
    yield "complete on four, round a vertex", 125, graphs.star_of_complete(31)
    yield "doubled path", 128, graphs.doubled_path(128)
    yield "64 loops", 1, [(0, 0)] * 64


def _classes(labels):
    found = {}
    for vertex, label in labels.items():
        found.setdefault(label, []).append(vertex)
    return list(found.values())


def paths(rng):
    for vertices in (20, 40, 64):
        for edges in (vertices, 2 * vertices, 4 * vertices, 512):
            for terminals in (4, vertices // 3, 2 * vertices // 3):
                if edges <= vertices * (vertices - 1) // 2:
                    labels = {v: rng.randrange(2 + terminals // 4) for v in range(terminals)}
                    name = f"{vertices} vertices, {edges} edges, {terminals} terminals"
                    yield name, vertices, graphs.random_graph(rng, vertices, edges), _classes(labels)
    grid = graphs.grid(8, 8)
    sides = [list(range(8)), list(range(56, 64))]
    border = [list(range(8)), list(range(56, 64)), [8 * i for i in range(1, 7)], [8 * i + 7 for i in range(1, 7)]]
    yield "grid, two sides", 64, grid, sides
    yield "grid, four sides", 64, grid, border
    yield "grid, two corners", 64, grid, [[0], [63]]
    yield "grid, a class for every third", 64, grid, [[v] for v in range(0, 64, 3)]
    yield "every vertex a class", 64, graphs.random_graph(rng, 64, 100), [[v] for v in range(64)]
    yield "tree", 64, graphs.tree(rng, 64), [[v] for v in range(64) if rng.randrange(3) == 0]


def random_lines(rng):
    kinds = [(2, 2048), (2, 128), (2, 64), (3, 2048), (251, 2048), (251, 128), (256, 2048)]
    for order, lines in kinds:
        for name, order, dimension, lines, density in _spread(f"{order}, {lines} lines", order, 128, lines):
            yield name, problems.dense(rng, order, dimension, lines, density)


def few_points(rng):
    for order, count, lines, density in (
        (2, 40, 2048, 0.5), (2, 100, 2048, 0.5), (2, 300, 2048, 0.02), (251, 100, 2048, 0.5),
        (251, 300, 2048, 0.02), (251, 128, 200, 0.5), (2, 128, 150, 0.5),
    ):
        yield f"{order}, {count} points, {lines} lines", problems.points(rng, order, 128, count, lines, density)


def hubs(rng):
    for order, widths, sizes in ((2, (2, 4, 10, 20, 40), (1, 3, 5, 7)), (251, (4, 20, 40), (1, 3, 5))):
        for width in widths:
            for size in sizes:
                blocks = (128 - width) // size
                for lines in (blocks * ((size + 3) // 2), 2048):
                    made = problems.hub(rng, order, width, blocks, size, lines, 0.5 if order == 2 else 0.3)
                    name = f"{order}, hub {width}, {blocks} blocks of {size}, {lines} lines"
                    yield name, problems.scrambled(rng, made) if order == 2 else made


def nested_hubs(rng):
    for levels in (3, 4):
        for width in (1, 2, 3):
            for size in (3, 5):
                leaves = 2 ** (levels - 1)
                for lines in ((leaves - 1) * width + leaves * size, 600, 2048):
                    made = problems.nested(rng, 2, levels, width, size, lines)
                    yield f"{levels} levels, hubs {width}, leaves {size}, {lines} lines", problems.scrambled(rng, made)


def flags_and_triangles(rng):
    flags = lambda order, copies, count: problems.flagged_triangles(order, copies, count)
    yield "2, 12 flags of 3", flags(2, 12, 3)
    yield "2, 12 flags of 3, another basis", problems.scrambled(rng, flags(2, 12, 3))
    yield "251, 12 flags of 3", flags(251, 12, 3)
    yield "2, 4 flags of 10", problems.scrambled(rng, flags(2, 4, 10))
    yield "2, a flag of 42", problems.scrambled(rng, flags(2, 1, 42))
    yield "2, 42 triangles", problems.scrambled(rng, problems.triangles(2, 42))
    for more in (5, 20, 60):
        made = problems.with_random_lines(rng, flags(2, 12, 3), more, 0.02)
        yield f"2, 12 flags of 3 and {more} random lines", problems.scrambled(rng, made)
        for order in (2, 251):
            made = problems.with_random_lines(rng, problems.triangles(order, 42), more, 0.02)
            yield f"{order}, 42 triangles and {more} random lines", problems.scrambled(rng, made)


def glued_blocks(rng):
    for order, blocks, size, lines, density in (
        (2, 30, 5, 2048, 0.05), (2, 50, 3, 2048, 0.03), (2, 20, 7, 2048, 0.5),
        (251, 50, 3, 2048, 0.03), (2, 60, 3, 200, 0.03), (2, 100, 3, 300, 0.02),
    ):
        name = f"{order}, {blocks} blocks of {size}, {lines} lines"
        yield name, problems.glued(rng, order, 128, blocks, size, lines, density)


def _limit_problem(rng, order, dimension):
    """2,048 dense lines, and how many of the first ones are taken for a set: half the dimension, which are independent in these."""
    return problems.dense(rng, order, dimension, 2048, 0.6), dimension // 2


def _positions(positions):
    return " ".join(map(str, positions))


def checks(rng):
    """A set as large as the dimension allows, with one part, which makes a good answer, and with a part for each line, which doesn't."""
    for order in (251, 256):
        for name, parts, wanted in (("one part", [range(1, 2049)], "yes"), ("a part a line", [[n] for n in range(1, 2049)], "no bound")):
            problem, size = _limit_problem(rng, order, 128)
            certificate = "\n".join(["kernel 0", f"parts {len(parts)}", *(f"part {_positions(part)}" for part in parts), "end"])
            answer = f"answer 1\nsize {size}\nset {_positions(range(1, size + 1))}\n{certificate}\n"
            yield f"{order}, {name}", ("check",), problem.text() + answer, wanted


def steps(rng):
    """A set from which no step leads on, since one dimension is left over."""
    for order in (251, 256):
        problem, size = _limit_problem(rng, order, 127)
        choice = f"choice 1\nsize {size}\nset {_positions(range(1, size + 1))}\nend\n"
        yield f"{order}, no step", ("improve",), problem.text() + choice, "none"


TEXTS = {"check": checks, "improve": steps}
GRAPHS = {"matching": matchings, "cactus": cacti, "genus": genera, "spaths": paths}
PROBLEMS = {
    "random lines": random_lines, "few points": few_points, "hubs": hubs, "nested hubs": nested_hubs,
    "flags and triangles": flags_and_triangles, "glued blocks": glued_blocks,
}
NAMES = ["sample", *GRAPHS, *PROBLEMS, *TEXTS]


def files_of(family):
    """The files of a family, in order, from a seed of its own."""
    rng = random.Random(f"cavreddin {family}")
    if family == "sample":
        for name, words, text in samples(rng):
            yield File(family, name, words, text)
    elif family in TEXTS:
        for name, words, text, wanted in TEXTS[family](rng):
            yield File(family, name, words, text, wanted)
    elif family in GRAPHS:
        for name, vertices, edges, *classes in GRAPHS[family](rng):
            mixed = edges if classes else graphs.shuffled(rng, vertices, edges)
            yield File(family, name, (family,), graphs.text(vertices, mixed, *classes))
    else:
        for name, problem in PROBLEMS[family](rng):
            yield File(family, name, ("solve",), problem.text())
