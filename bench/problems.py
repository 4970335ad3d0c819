"""Problems for the benchmark: a field's order, a dimension, and lines, each a pair of lists of numbers."""

from dataclasses import dataclass, field


def _byte_product(a, b):
    """The product of two bytes: without carries, reduced by x^8 + x^4 + x^3 + x + 1."""
    product = 0
    while b:
        product ^= a if b & 1 else 0
        a, b = a << 1 ^ (0x11B if a & 0x80 else 0), b >> 1
    return product


@dataclass
class Problem:
    order: int
    dimension: int
    lines: list = field(default_factory=list)

    def add(self, first, second):
        self.lines.append((first, second))

    def sum(self, a, b):
        return a ^ b if self.order == 256 else (a + b) % self.order

    def product(self, a, b):
        return _byte_product(a, b) if self.order == 256 else a * b % self.order

    def plus(self, v, factor, w):
        if factor == 0:
            return list(v)
        if self.order == 2:
            return [a ^ b for a, b in zip(v, w)]
        return [self.sum(a, self.product(factor, b)) for a, b in zip(v, w)]

    def unit(self, at, value=1):
        return [value if i == at else 0 for i in range(self.dimension)]

    def text(self):
        head = ["parity 1", f"field {self.order}", f"dimension {self.dimension}", f"lines {len(self.lines)}"]
        spelled = lambda v: " ".join(map(str, v))
        return "\n".join(head + [f"line {spelled(v)} | {spelled(w)}" for v, w in self.lines]) + "\n"


def random_vector(rng, order, dimension, density):
    return [rng.randrange(1, order) if rng.random() < density else 0 for _ in range(dimension)]


def dense(rng, order, dimension, lines, density):
    problem = Problem(order, dimension)
    for _ in range(lines):
        problem.add(*(random_vector(rng, order, dimension, density) for _ in range(2)))
    return problem


def hub(rng, order, hub, blocks, size, lines, density=0.5):
    """Each line lies in one block's coordinates and those of the hub, which all blocks share."""
    problem = Problem(order, hub + blocks * size)

    def vector(block):
        v = [rng.randrange(order) if i < hub and rng.random() < density else 0 for i in range(problem.dimension)]
        first = hub + block * size
        v[first : first + size] = [rng.randrange(order) for _ in range(size)]
        return v

    for i in range(lines):
        problem.add(vector(i % blocks), vector(i % blocks))
    return problem


def nested(rng, order, levels, hub, size, lines):
    """A binary tree of hubs: a line lies in one leaf's coordinates and those of the hubs above it."""
    inner = 2 ** (levels - 1) - 1
    leaves = inner + 1
    width = lambda node: hub if node < inner else size
    first = [sum(map(width, range(node))) for node in range(inner + leaves)]
    problem = Problem(order, sum(map(width, range(inner + leaves))))

    def vector(leaf):
        v, node = [0] * problem.dimension, inner + leaf
        while True:
            for j in range(width(node)):
                if node >= inner or rng.randrange(3) == 0:
                    v[first[node] + j] = rng.randrange(order)
            if node == 0:
                return v
            node = (node - 1) // 2

    for i in range(lines):
        problem.add(vector(i % leaves), vector(i % leaves))
    return problem


def points(rng, order, dimension, points, lines, density):
    """Each line joins two of few points."""
    known = [random_vector(rng, order, dimension, density) for _ in range(points)]
    problem = Problem(order, dimension)
    for _ in range(lines):
        problem.add(rng.choice(known), rng.choice(known))
    return problem


def glued(rng, order, dimension, blocks, size, lines, density):
    """Each line lies in the span of one of several short lists of random vectors."""
    problem = Problem(order, dimension)
    known = [[random_vector(rng, order, dimension, density) for _ in range(size)] for _ in range(blocks)]

    def vector(block):
        v = [0] * dimension
        for w in block:
            v = problem.plus(v, rng.randrange(order), w)
        return v

    for i in range(lines):
        problem.add(vector(known[i % blocks]), vector(known[i % blocks]))
    return problem


def flagged_triangles(order, copies, triangles):
    """Copies of triangles of which one side each also has a coordinate that all in the copy share."""
    size = 1 + 3 * triangles
    problem = Problem(order, copies * size)
    for c in range(copies):
        for t in range(triangles):
            x, y, z = (problem.unit(c * size + 1 + 3 * t + i) for i in range(3))
            problem.add(x, y)
            problem.add(y, z)
            problem.add([1 if i == c * size else a for i, a in enumerate(x)], z)
    return problem


def triangles(order, count):
    problem = Problem(order, 3 * count)
    for t in range(count):
        x, y, z = (problem.unit(3 * t + i) for i in range(3))
        for pair in ((x, y), (y, z), (x, z)):
            problem.add(*pair)
    return problem


def with_random_lines(rng, problem, lines, density):
    for _ in range(lines):
        problem.add(*(random_vector(rng, problem.order, problem.dimension, density) for _ in range(2)))
    return problem


def _inverse(problem, a):
    return next(b for b in range(1, problem.order) if problem.product(a, b) == 1)


def random_basis(rng, problem):
    """As many independent vectors as the dimension."""
    found, reduced = [], []
    while len(found) < problem.dimension:
        v = random_vector(rng, problem.order, problem.dimension, 0.5)
        rest = v
        for pivot, w in reduced:
            if rest[pivot]:
                minus = next(f for f in range(problem.order) if problem.sum(rest[pivot], problem.product(f, w[pivot])) == 0)
                rest = problem.plus(rest, minus, w)
        pivot = next((i for i, a in enumerate(rest) if a), None)
        if pivot is not None:
            inverse = _inverse(problem, rest[pivot])
            reduced.append((pivot, [problem.product(inverse, a) for a in rest]))
            found.append(v)
    return found


def scrambled(rng, problem):
    """The same problem in another basis, with its lines in another order and each by another pair of vectors."""
    basis = random_basis(rng, problem)
    made = Problem(problem.order, problem.dimension)

    def moved(v):
        w = [0] * problem.dimension
        for factor, b in zip(v, basis):
            if factor:
                w = problem.plus(w, factor, b)
        return w

    for first, second in rng.sample(problem.lines, len(problem.lines)):
        first, second = rng.sample((moved(first), moved(second)), 2)
        made.add(first, problem.plus(second, rng.randrange(problem.order), first))
    return made
