"""Graphs for the benchmark: lists of edges over the vertices 0, 1, 2, .."""


def random_graph(rng, vertices, edges):
    """Different edges between different vertices, as many as wanted or as there are."""
    most = vertices * (vertices - 1) // 2
    seen, found = set(), []
    while len(found) < min(edges, most):
        a, b = rng.randrange(vertices), rng.randrange(vertices)
        key = (min(a, b), max(a, b))
        if a != b and key not in seen:
            seen.add(key)
            found.append((a, b))
    return found


def tree(rng, vertices, back=None):
    """Each vertex hangs on an earlier one, at most `back` before it."""
    first = lambda i: 0 if back is None else max(0, i - back)
    return [(i, rng.randrange(first(i), i)) for i in range(1, vertices)]


def connected_graph(rng, vertices, edges):
    more = random_graph(rng, vertices, edges)
    found = tree(rng, vertices)
    return found + more[: edges - len(found)]


def is_connected(vertices, edges):
    reached, around = {0}, {v: [] for v in range(vertices)}
    for a, b in edges:
        around[a].append(b)
        around[b].append(a)
    left = [0]
    while left:
        for w in around[left.pop()]:
            if w not in reached:
                reached.add(w)
                left.append(w)
    return len(reached) == vertices


def cubic_graph(rng, vertices):
    """A connected graph with three ends of edges at each vertex, without loops."""
    while True:
        ends = [v for v in range(vertices) for _ in range(3)]
        rng.shuffle(ends)
        found = list(zip(ends[::2], ends[1::2]))
        if all(a != b for a, b in found) and is_connected(vertices, found):
            return found


def torus(rows, columns):
    at = lambda i, j: i % rows * columns + j % columns
    places = [(i, j) for i in range(rows) for j in range(columns)]
    return [(at(i, j), at(*to)) for i, j in places for to in ((i, j + 1), (i + 1, j))]


def triangulated_torus(rows, columns):
    at = lambda i, j: i % rows * columns + j % columns
    more = [(at(i, j), at(i + 1, j + 1)) for i in range(rows) for j in range(columns)]
    return torus(rows, columns) + more


def grid(rows, columns):
    across = [(i * columns + j, i * columns + j + 1) for i in range(rows) for j in range(columns - 1)]
    down = [(i * columns + j, (i + 1) * columns + j) for i in range(rows - 1) for j in range(columns)]
    return across + down


def complete(vertices, first=0):
    return [(first + i, first + j) for i in range(vertices) for j in range(i + 1, vertices)]


def cycle(length, first=0):
    return [(first + i, first + (i + 1) % length) for i in range(length)]


def flowers(cycles, length):
    """Cycles in a row, each joined to the next."""
    found = [edge for c in range(cycles) for edge in cycle(length, c * length)]
    return found + [(c * length + length // 2, (c + 1) * length) for c in range(cycles - 1)]


def hub_of_triangles(rng, hub, vertices, edges):
    """Some vertices, each joined at random to many triangles."""
    count = (vertices - hub) // 3
    found = [edge for t in range(count) for edge in cycle(3, hub + 3 * t)]
    while len(found) < edges:
        found.append((rng.randrange(hub), hub + rng.randrange(3 * count)))
    return found


def blossoms(rng, length, vertices):
    """Odd cycles with chords, each joined twice to the one before."""
    found = []
    for first in range(0, vertices - length + 1, length):
        found += cycle(length, first)
        found += [(first + i, first + (i + 3) % length) for i in range(1, length, 2)]
        if first:
            found += [(first + rng.randrange(length), first - 1 - rng.randrange(length)) for _ in range(2)]
    return found


def bipartite(rng, left, vertices, edges):
    return [(rng.randrange(left), left + rng.randrange(vertices - left)) for _ in range(edges)]


def strip(vertices):
    return [(i, j) for i in range(vertices) for j in (i + 1, i + 2) if j < vertices]


def wheel(vertices):
    rim = vertices - 1
    return [edge for i in range(1, vertices) for edge in ((0, i), (i, i % rim + 1))]


def triangles(edges):
    """How many triangles a graph has."""
    around = {}
    for a, b in edges:
        around.setdefault(a, set()).add(b)
        around.setdefault(b, set()).add(a)
    return sum(len(around[a] & around[b]) for a, b in {(min(e), max(e)) for e in edges if e[0] != e[1]}) // 3


def two_tree(rng, vertices):
    """Each vertex makes a triangle with an earlier edge."""
    found = [(0, 1)]
    for v in range(2, vertices):
        a, b = rng.choice(found)
        found += [(v, a), (v, b)]
    return found


def doubled_path(vertices):
    return [(i, i + 1) for i in range(vertices - 1) for _ in range(2)]


def chain_of_complete(count):
    """Complete graphs on four vertices, each joined to the next."""
    found = [edge for t in range(count) for edge in complete(4, 4 * t)]
    return found + [(4 * t - 1, 4 * t) for t in range(1, count)]


def star_of_complete(count):
    """Complete graphs on four vertices, each joined to one vertex."""
    return [edge for t in range(count) for edge in complete(4, 1 + 4 * t) + [(0, 1 + 4 * t)]]


def shuffled(rng, vertices, edges):
    """The same graph with its vertices and edges in another order."""
    name = list(range(vertices))
    rng.shuffle(name)
    found = [tuple(rng.sample((name[a], name[b]), 2)) for a, b in edges]
    rng.shuffle(found)
    return found


def text(vertices, edges, classes=None):
    """The text of a graph; classes are lists of vertices."""
    lines = ["graph 1"] + [f"vertex v{v}" for v in range(vertices)]
    lines += [f"edge v{a} v{b}" for a, b in edges]
    lines += ["class " + " ".join(f"v{v}" for v in members) for members in classes or [] if members]
    return "\n".join(lines) + "\n"
