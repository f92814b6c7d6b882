"""Families of instances and graphs at the limits of the program, on which a solver by matching or by
growing regions may work hard; and patterns, from which a search makes more of them. Everything is
deterministic. Each family can be made smaller, to see how its time grows.

A pattern is written in one line, so that what a search finds is kept here as it was printed.
"""
import math

import model

SPINS, BONDS, SUM = 2048, 6144, 2**44
LARGE = 2**32


def generator(seed):
    """A function that draws a whole number below the one it is given (SplitMix64)."""
    state = seed

    def below(n):
        nonlocal state
        state = (state + 0x9E3779B97F4A7C15) % 2**64
        z = state
        z = (z ^ (z >> 30)) * 0xBF58476D1CE4E5B9 % 2**64
        z = (z ^ (z >> 27)) * 0x94D049BB133111EB % 2**64
        return (z ^ (z >> 31)) % n
    return below


def drawn(seed, most=2**20):
    """Weights that are drawn below `most`, whatever they are asked for."""
    below = generator(seed)
    return lambda *_: below(most)


def powers(seed):
    """Powers of 2 up to 2^19, drawn whatever they are asked for."""
    below = generator(seed)
    return lambda *_: 2**below(20)


def always(w):
    return lambda *_: w


# Graphs.

class Graph:
    """Nodes 0 to n - 1, weighted edges (a, b, w), and terminals: each node, if none are named."""

    def __init__(self, n, edges, terminals=None):
        self.n, self.edges = n, edges
        self.terminals = list(range(n)) if terminals is None else terminals

    def text(self, command):
        lines = [f"graph,{self.n}"] + [f"edge,{a},{b},{w}" for a, b, w in self.edges]
        terminals = self.terminals[:len(self.terminals) // 2 * 2]
        if command == "tjoin" and terminals:
            lines.append("term," + ",".join(map(str, terminals)))
        return "\n".join(lines + ["end"]) + "\n"


def some(graph, seed):
    """The same graph with a drawn half of its nodes as terminals."""
    below = generator(seed)
    return Graph(graph.n, graph.edges, [x for x in range(graph.n) if below(2)])


def leaves_of(graph, hubs=1):
    """The same graph without its first nodes as terminals."""
    return Graph(graph.n, graph.edges, list(range(hubs, graph.n)))


def path(n, w):
    return Graph(n, [(i, i + 1, w(i)) for i in range(n - 1)])


def cycle(n, w):
    return Graph(n, [(i, (i + 1) % n, w(i)) for i in range(n)])


def star(n, w):
    return Graph(n, [(0, i, w(i)) for i in range(1, n)])


def wheel(n, spoke, rim):
    k = n - 1
    return Graph(n, [(i, (i + 1) % k, rim(i)) for i in range(k)] + [(k, i, spoke(i)) for i in range(k)])


def fan(n, spoke, rim):
    k = n - 1
    return Graph(n, [(i, i + 1, rim(i)) for i in range(k - 1)] + [(k, i, spoke(i)) for i in range(k)])


def ladder_dual(n, spoke, rung):
    """The faces of a ladder: a path, each node of which has two edges to the face outside."""
    k = n - 1
    edges = [(i, i + 1, rung) for i in range(k - 1)] + [(0, k, rung), (k - 1, k, rung)]
    return Graph(n, edges + [(i, k, spoke) for i in range(k) for _ in range(2)])


def strip(n, w):
    """A row of triangles."""
    near = [(i, i + 1, w(2 * i)) for i in range(n - 1)]
    return Graph(n, near + [(i, i + 2, w(2 * i + 1)) for i in range(n - 2)])


def ladder(n, rung, rail):
    k = n // 2
    rails = [(2 * i + s, 2 * i + s + 2, rail(i)) for i in range(k - 1) for s in (0, 1)]
    return Graph(2 * k, [(2 * i, 2 * i + 1, rung(i)) for i in range(k)] + rails)


def grid(n, w):
    side = math.isqrt(n)
    edges = []
    for r in range(side):
        for c in range(side):
            if c + 1 < side:
                edges.append((r * side + c, r * side + c + 1, w(r, c)))
            if r + 1 < side:
                edges.append((r * side + c, (r + 1) * side + c, w(r, c)))
    return Graph(side * side, edges)


def tree(n, seed, w):
    below = generator(seed)
    return Graph(n, [(below(x), x, w(x)) for x in range(1, n)])


def caterpillar(n, spine, leaf):
    k = n // 2
    return Graph(2 * k, [(i, i + 1, spine(i)) for i in range(k - 1)] + [(i, k + i, leaf(i)) for i in range(k)])


def bipartite(a, b, w):
    return Graph(a + b, [(i, a + j, w(i, j)) for i in range(a) for j in range(b)])


def complete(n, w):
    return Graph(n, [(i, j, w(i, j)) for i in range(n) for j in range(i + 1, n)])


def random(n, m, seed, w):
    """A random tree and further edges, some of them parallel or from a node to itself."""
    below = generator(seed)
    edges = [(below(x), x, w(x)) for x in range(1, n)]
    return Graph(n, edges + [(below(n), below(n), w(k)) for k in range(m - len(edges))])


def two_hubs(n, between, w):
    """Two nodes, and paths of so many nodes between them."""
    edges, count = [], (n - 2) // between
    for p in range(count):
        nodes = [0] + [2 + p * between + q for q in range(between)] + [1]
        edges += [(nodes[q], nodes[q + 1], w(p, q)) for q in range(between + 1)]
    return Graph(2 + count * between, edges)


def rising(law, k):
    """Weights that rise with k: by one, by doubling, or as Fibonacci's numbers, up to 2^31."""
    if law == "one":
        return k
    if law == "double":
        return 2**min(k, 31)
    a, b = 1, 1
    for _ in range(min(k, 45)):
        a, b = b, a + b
    return min(b, 2**31)


def nested_cycles(n, law):
    """An odd cycle around an odd cycle, and so on: each step joins two nodes more."""
    edges, last = [(0, 1, 1), (1, 2, 1), (0, 2, 1)], 2
    for k in range(1, (n - 3) // 2 + 1):
        w = rising(law, k)
        edges += [(last, last + 1, w), (last + 1, last + 2, w), (last + 2, last - 1, w)]
        last += 2
    return Graph(last + 1, edges)


def cycles_at_a_hub(n, law):
    """Odd cycles that share one node, each farther than the one before."""
    edges = []
    for k in range(1, (n - 1) // 2 + 1):
        w, x = rising(law, k), 2 * k - 1
        edges += [(0, x, w), (0, x + 1, w), (x, x + 1, 2 * w - 1 if law == "one" else w)]
    return Graph(1 + len(edges) // 3 * 2, edges)


def two_far_hubs(n, gap):
    """Found by search: each node far from two nodes that are near one another."""
    return Graph(n, [(h, i, (i - 2)**2 + gap * h) for i in range(2, n) for h in (0, 1)])


def petals(n):
    """Found by search: pairs at a hub, whose other ends come one after another."""
    k = (n - 1) // 2
    edges = [(0, 2 + 2 * i, 1) for i in range(k)] + [(1 + 2 * i, 2 + 2 * i, 30 + i * i) for i in range(k)]
    return Graph(2 * k + 1, edges + [(1 + 2 * i, 2 * k - 2 * i, 37 + i * i) for i in range(k)], list(range(1, 2 * k + 1)))


def rows_at_hubs(n):
    """Found by search: a hub by two edges, a path, leaves that come one after another, a far hub."""
    k, edges = (n - 2) // 2, []
    for i in range(k):
        a = 2 + 2 * i
        edges += [(a, 0, 7 if i % 2 else 1), (a, a + 1, 4 * i * i), (a, 0, i)]
        if i + 1 < k:
            edges.append((a, a + 2, 3))
        if i + 2 < k:
            edges += [(a, a + 5, 16 + 4 * i * i), (a, a + 4, 3 if i % 2 else 1)]
    return Graph(2 * k + 2, edges + [(0, 1, 1000000)])


# Instances.

class Planar:
    """An instance of `ground`."""

    def __init__(self, instance):
        self.instance = instance

    def text(self, _command):
        return self.instance.text


def lattice(kind, rows, cols, across, down, slant=always(-1)):
    """A lattice with couplings by direction, each from the row and the column of the bond's first spin."""
    values = [across(r, c) for r in range(rows) for c in range(cols if kind == "cylinder" else cols - 1)]
    values += [down(r, c) for r in range(rows - 1) for c in range(cols) if kind != "hexagonal" or (r + c) % 2 == 0]
    if kind == "triangular":
        values += [slant(r, c) for r in range(rows - 1) for c in range(cols - 1)]
    return Planar(model.lattice(kind, rows, cols, lambda k: values[k]))


def rowwise(size):
    """Couplings of a size that are negative in every other row: each square is frustrated (Villain)."""
    return lambda r, c: size if r % 2 else -size


def villain(rows, cols, rail=1, rung=1):
    return lattice("square", rows, cols, rowwise(rail), always(rung))


def antiferromagnet(rows, cols, rail=1, rung=1):
    """Triangles that are all frustrated."""
    return lattice("triangular", rows, cols, always(-rail), always(-rung), always(-rung))


def two_sizes(kind, side, seed, large):
    """Each coupling large or 1, of drawn sign."""
    below = generator(seed)
    coupling = lambda r, c: (large if below(2) else 1) * (1 if below(2) else -1)
    return lattice(kind, side, side, coupling, coupling, coupling)


def signs(kind, rows, cols, seed, most=1):
    """Couplings of drawn sign, of a size from 1 to `most`."""
    below = generator(seed)
    coupling = lambda r, c: (1 + below(most)) * (1 if below(2) else -1)
    return lattice(kind, rows, cols, coupling, coupling, coupling)


def tailed(kind, rows, cols, seed):
    """Couplings of drawn sign and of size 2^u, u drawn from 0 to 20: of very different sizes."""
    below = generator(seed)
    coupling = lambda r, c: ((2**20 + below(2**20) << below(20)) >> 20) * (1 if below(2) else -1)
    return lattice(kind, rows, cols, coupling, coupling, coupling)


def on_circle(n, chords, rim, inside):
    """Spins in a ring with bonds across it that do not cross: so one face has all spins. The couplings
    are negative, so that each triangle is frustrated."""
    ends = [(i, (i + 1) % n) for i in range(n)] + chords
    bonds = [(u, v, -(rim(k) if k < n else inside(k - n))) for k, (u, v) in enumerate(ends)]
    lists = [[] for _ in range(n)]
    for k, (u, v) in enumerate(ends):
        lists[u].append(((v - u) % n, 2 * k))
        lists[v].append(((u - v) % n, 2 * k + 1))
    lines = [f"general,{n}"] + [f"bond,{u},{v},{j}" for u, v, j in bonds]
    lines += [",".join(["rot", str(x)] + [str(dart) for _, dart in sorted(darts)]) for x, darts in enumerate(lists)]
    return Planar(model.Instance("\n".join(lines + ["end"]) + "\n", n, bonds))


def ring(n, rim):
    return on_circle(n, [], rim, always(1))


def polygon_fan(n, rim, inside):
    return on_circle(n, [(0, i) for i in range(2, n - 1)], rim, inside)


def polygon_strip(n, rim, inside):
    low, high, chords = 1, n - 1, []
    while high - low > 1:
        chords.append((low, high))
        low, high = (low + 1, high) if len(chords) % 2 else (low, high - 1)
    return on_circle(n, chords, rim, inside)


def polygon_drawn(n, seed, rim, inside):
    """Cut into triangles at random."""
    below, chords, open_sides = generator(seed), [], [(0, n - 1)]
    while open_sides:
        u, v = open_sides.pop()
        if v - u < 2:
            continue
        if v - u < n - 1:
            chords.append((u, v))
        x = u + 1 + below(v - u - 1)
        open_sides += [(u, x), (x, v)]
    return on_circle(n, chords, rim, inside)


def drawn_from(n, faces, size, seed):
    """A graph on a sphere from its faces, each the cycle of its spins in one sense of rotation, so that each bond
    has one face on either side. Couplings are of drawn sign."""
    after, number, ends = {}, {}, []
    for face in faces:
        for before, here, there in zip(face[-1:] + face[:-1], face, face[1:] + face[:1]):
            after[here, there] = before
            if (there, here) not in number:
                number[here, there] = len(ends)
                ends.append((here, there))
    sign = generator(seed)
    bonds = [(u, v, size(k) * (1 if sign(2) else -1)) for k, (u, v) in enumerate(ends)]
    lists, first = [[] for _ in range(n)], {u: v for v, u in reversed(list(after))}
    for x, start in first.items():
        there = start
        while not lists[x] or there != start:
            lists[x].append(2 * number[x, there] if (x, there) in number else 2 * number[there, x] + 1)
            there = after[x, there]
    lines = [f"general,{n}"] + [f"bond,{u},{v},{j}" for u, v, j in bonds]
    lines += [",".join(["rot", str(x)] + list(map(str, darts))) for x, darts in enumerate(lists)]
    return Planar(model.Instance("\n".join(lines + ["end"]) + "\n", n, bonds))


def stacked(n, seed):
    """The triangles of a graph of n spins, each of which comes into a drawn triangle: some have very many bonds."""
    below, faces = generator(seed), [[0, 1, 2], [0, 2, 1]]
    for x in range(3, n):
        place = below(len(faces))
        a, b, c = faces[place]
        faces[place] = [a, b, x]
        faces += [[b, c, x], [c, a, x]]
    return faces


def crossed_squares(side, seed):
    """The triangles of a square lattice with one of the diagonals of each square, and the face outside."""
    below, spin, faces = generator(seed), lambda r, c: r * side + c, []
    for r in range(side - 1):
        for c in range(side - 1):
            a, b, d, e = spin(r, c), spin(r, c + 1), spin(r + 1, c + 1), spin(r + 1, c)
            faces += [[a, b, d], [a, d, e]] if below(2) else [[a, b, e], [b, d, e]]
    last = side - 1
    rim = [spin(0, c) for c in range(last)] + [spin(r, last) for r in range(last)]
    rim += [spin(last, last - c) for c in range(last)] + [spin(last - r, 0) for r in range(last)]
    return faces + [rim[::-1]]


def dual_faces(faces):
    """The faces of the dual of a graph of triangles: its spins are the triangles."""
    left, sides = {}, {}
    for k, face in enumerate(faces):
        for here, there in zip(face, face[1:] + face[:1]):
            left[here, there] = k
            sides.setdefault(here, there)
    found = []
    for x, start in sides.items():
        cycle, there = [], start
        while not cycle or there != start:
            face = faces[left[x, there]]
            cycle.append(left[x, there])
            there = face[face.index(x) - 1]
        found.append(cycle)
    return found


# Patterns of graphs: rows of copies of a small piece, with hubs.

class Pattern:
    """`nodes` nodes in each copy, `hubs` nodes beside all copies, which nodes are no terminals, and
    genes. A gene is an edge in each copy: from one of its nodes, to one of the same copy (kind 0), of
    the next (1), of the one behind (2), of the copy as far from the other end (3), or to a hub (from 4
    on), with a law of weights and its two numbers. What is not joined then is joined to hub 0, far."""

    def __init__(self, nodes, hubs, left_out, genes):
        self.nodes, self.hubs, self.left_out, self.genes = nodes, hubs, left_out, genes

    def line(self):
        return " ".join([str(self.nodes), str(self.hubs), str(self.left_out)] + [",".join(map(str, g)) for g in self.genes])

    def end(self, copy, copies, gene):
        kind, to = gene[1], gene[2] % self.nodes
        if kind >= 4:
            return (kind - 4) % self.hubs
        there = copies - 1 - copy if kind == 3 else copy + kind
        return None if there >= copies else self.hubs + there * self.nodes + to

    def is_terminal(self, node):
        copy, place = divmod(node - self.hubs, self.nodes)
        if node < self.hubs:
            return not self.left_out & 32
        if self.left_out & 8:
            return bool(self.left_out >> place & 1)
        return copy % 3 != 0 if self.left_out & 16 else True

    def graph(self, n):
        """The graph of about so many nodes."""
        copies = min((n - self.hubs) // self.nodes, 3 * n // max(1, len(self.genes)) - 1)
        count, edges = self.hubs + copies * self.nodes, []
        for copy in range(copies):
            for gene in self.genes:
                a, b = self.hubs + copy * self.nodes + gene[0] % self.nodes, self.end(copy, copies, gene)
                if b is not None and a != b:
                    edges.append((a, b, law(gene[3], gene[4], gene[5], copy, copies)))
        joined = joining(count, edges)
        if len(edges) + len(joined) > 3 * n:
            edges = edges[:3 * n - count]
            joined = joining(count, edges)
        edges += joined
        return Graph(count, lighter(edges), [x for x in range(count) if self.is_terminal(x)])


def pattern(line):
    nodes, hubs, left_out, *genes = line.split()
    return Pattern(int(nodes), int(hubs), int(left_out), [tuple(map(int, g.split(","))) for g in genes])


def law(which, a, b, i, n):
    """One of nine laws of weights: of copy i of n."""
    if which == 0:
        return a
    if which == 1:
        return a + b * i
    if which == 2:
        return a + b * (n - i)
    if which == 3:
        return 2**((i * b + a) % 32)
    if which == 4:
        return a + 2**(i * 32 // n)
    if which == 5:
        return generator(i * 77 + a * 1000003 + b)(2**(2 * b))
    if which == 6:
        return a if i % (b + 1) else b
    if which == 7:
        return a + b * i * i
    return a + 2**(32 - i * 32 // n)


def joining(count, edges):
    """Far edges from node 0 to each part that no edge joins to it."""
    up = list(range(count))

    def top(x):
        while up[x] != x:
            up[x] = up[up[x]]
            x = up[x]
        return x
    for a, b, _ in edges:
        up[top(a)] = top(b)
    added = []
    for x in range(1, count):
        if top(x) != top(0):
            up[top(x)] = top(0)
            added.append((0, x, 1000000))
    return added


def lighter(edges):
    """The same edges, no one heavier than its share of the largest sum where that is exceeded."""
    if sum(w for _, _, w in edges) <= SUM:
        return edges
    return [(a, b, min(w, SUM // len(edges))) for a, b, w in edges]


# Patterns of strips: lattices of few rows.

class Strip:
    """A lattice of `rows` rows, of which the squares or triangles are all frustrated (signs 0), or the
    signs are drawn (1), or are negative in every third column (2). Nine laws of sizes with their two
    numbers: of the bonds along the rows, across them and slanted, each in the first row, in the last
    one, and in those between."""

    def __init__(self, kind, rows, signs, genes):
        self.kind, self.rows, self.signs, self.genes = kind, rows, signs, genes

    def line(self):
        return " ".join([self.kind, str(self.rows), str(self.signs)] + [",".join(map(str, g)) for g in self.genes])

    def coupling(self, direction, cols):
        below = generator(direction)

        def at(r, c):
            band = 0 if r == 0 else 1 if r >= self.rows - (1 if direction == 0 else 2) else 2
            which, a, b = self.genes[3 * direction + band]
            size = min(law(which, a, b, c, cols), SUM // BONDS)
            if self.signs == 1:
                return size if below(2) else -size
            if self.signs == 2:
                return size if c % 3 else -size
            return size if self.kind != "triangular" and (direction == 1 or r % 2) else -size
        return at

    def instance(self, n):
        """The strip of about so many spins."""
        cols = max(3, n // self.rows)
        return lattice(self.kind, self.rows, cols, *[self.coupling(direction, cols) for direction in range(3)])


def strip_pattern(line):
    kind, rows, which, *genes = line.split()
    return Strip(kind, int(rows), int(which), [tuple(map(int, g.split(","))) for g in genes])


# What searches found, as they printed it.
FOUND_GRAPHS = [
    "1 2 0 0,5,1,7,2,1 3,4,1,7,0,1 0,4,3,7,12,1",
    "3 3 63 2,0,0,7,3,6 0,4,2,0,0,1 0,4,3,4,0,4 3,3,1,7,1,1 0,4,2,5,1,1",
    "1 3 0 1,2,3,7,33,2 3,0,2,3,2,1 2,6,1,7,3,1",
    "3 2 63 2,2,3,7,1,1 2,1,1,7,7,5 2,4,1,2,11,1 2,6,0,0,0,1 1,0,1,1,0,5",
    "1 1 31 1,1,3,7,41,1",
]
FOUND_STRIPS = [
    "triangular 4 0 6,29,1 6,38,1 7,1,1 6,9,4 8,3,1 8,1,1 5,4,2 7,0,3 6,9,4",
]


# The families: a name, the commands that they are for, and what makes one of about so many nodes.

def graph_families():
    t, p = ("tjoin",), ("tjoin", "postman")
    big = SUM // BONDS
    return {
        "star, weights i": (p, lambda n: star(n, lambda i: i)),
        "star, weights n - i": (t, lambda n: star(n, lambda i: n - i)),
        "star, weights i, leaves": (t, lambda n: leaves_of(star(n, lambda i: i))),
        "star, all 1": (p, lambda n: star(n, always(1))),
        "star, powers of 2": (t, lambda n: star(n, lambda i: 2**(i * 37 // n))),
        "star, drawn": (p, lambda n: star(n, drawn(5))),
        "ladder dual, spokes 1, rungs 5": (p, lambda n: ladder_dual(n // 2, 1, 5)),
        "ladder dual, full, spokes 1, rungs 5": (t, lambda n: ladder_dual(n, 1, 5)),
        "ladder dual, full, spokes 5, rungs 1": (t, lambda n: ladder_dual(n, 5, 1)),
        "ladder dual, full, all 1": (t, lambda n: ladder_dual(n, 1, 1)),
        "ladder dual, full, half": (t, lambda n: some(ladder_dual(n, 1, 5), 3)),
        "wheel, spokes 1, rim 5": (p, lambda n: wheel(n, always(1), always(5))),
        "wheel, all 1": (p, lambda n: wheel(n, always(1), always(1))),
        "wheel, spokes 5, rim 1": (t, lambda n: wheel(n, always(5), always(1))),
        "wheel, spokes i, rim 5": (t, lambda n: wheel(n, lambda i: i + 1, always(5))),
        "wheel, spokes i, rim large": (t, lambda n: wheel(n, lambda i: i + 1, always(big))),
        "wheel, drawn": (p, lambda n: wheel(n, drawn(6), drawn(7))),
        "wheel, drawn, half": (t, lambda n: some(wheel(n, drawn(6), drawn(7)), 4)),
        "fan, spokes 1, rim 5": (p, lambda n: fan(n, always(1), always(5))),
        "fan, spokes 5, rim 1": (t, lambda n: fan(n, always(5), always(1))),
        "fan, spokes i, rim i": (t, lambda n: fan(n, lambda i: i + 1, lambda i: i + 1)),
        "fan, spokes i, rim 2i": (p, lambda n: fan(n, lambda i: i + 1, lambda i: 2 * i + 1)),
        "fan, spokes i, rim large": (t, lambda n: fan(n, lambda i: i + 1, always(big))),
        "strip, all 1": (p, lambda n: strip(n, always(1))),
        "strip, weights i": (t, lambda n: strip(n, lambda i: i + 1)),
        "strip, drawn": (t, lambda n: strip(n, drawn(7))),
        "path, all 0": (t, lambda n: path(n, always(0))),
        "path, all 1": (p, lambda n: path(n, always(1))),
        "path, weights i": (t, lambda n: path(n, lambda i: i)),
        "path, weights n - i, half": (t, lambda n: some(path(n, lambda i: n - i), 1)),
        "path, 0 and 1": (t, lambda n: path(n, drawn(8, 2))),
        "path, drawn, half": (t, lambda n: some(path(n, drawn(8)), 1)),
        "cycle, weights i, half": (t, lambda n: some(cycle(n, lambda i: i), 1)),
        "ladder, rungs 1, rails i": (t, lambda n: ladder(n, always(1), lambda i: i + 1)),
        "ladder, rungs 5, rails 1": (p, lambda n: ladder(n, always(5), always(1))),
        "grid, all 0": (t, lambda n: grid(n, always(0))),
        "grid, all 0, half": (t, lambda n: some(grid(n, always(0)), 2)),
        "grid, all 1": (p, lambda n: grid(n, always(1))),
        "grid, all 1, half": (t, lambda n: some(grid(n, always(1)), 2)),
        "grid, 0 and 1, half": (t, lambda n: some(grid(n, drawn(9, 2)), 2)),
        "grid, drawn, half": (t, lambda n: some(grid(n, drawn(9)), 2)),
        "grid, one heavy row, half": (t, lambda n: some(grid(n, lambda r, c: big if r == 22 else 1), 2)),
        "grid, weights r + c, half": (t, lambda n: some(grid(n, lambda r, c: r + c), 2)),
        "tree, drawn": (p, lambda n: tree(n, 11, drawn(12))),
        "tree, all 1, half": (t, lambda n: some(tree(n, 12, always(1)), 5)),
        "tree, 0 and 1": (p, lambda n: tree(n, 13, drawn(14, 2))),
        "caterpillar, all 1": (p, lambda n: caterpillar(n, always(1), always(1))),
        "caterpillar, leaves i": (t, lambda n: caterpillar(n, always(1), lambda i: i + 1)),
        "caterpillar, leaves n - i": (t, lambda n: caterpillar(n, lambda i: i, lambda i: n - i)),
        "bipartite 40, all 1": (t, lambda n: bipartite(40, 40, always(1))),
        "bipartite 40, products": (t, lambda n: bipartite(40, 40, lambda i, j: (i + 1) * (j + 1))),
        "bipartite 78, drawn": (t, lambda n: bipartite(78, 78, drawn(14))),
        "bipartite 3, all 1": (p, lambda n: bipartite(3, n - 48, always(1))),
        "bipartite 3, drawn": (p, lambda n: bipartite(3, n - 48, drawn(14))),
        "dense 110, all 1": (p, lambda n: complete(110, always(1))),
        "dense 110, weights i + j": (t, lambda n: complete(110, lambda i, j: i + j)),
        "dense 110, weights j - i": (t, lambda n: complete(110, lambda i, j: j - i)),
        "dense 110, drawn": (p, lambda n: complete(110, drawn(15))),
        "nested cycles, Fibonacci": (t, lambda n: nested_cycles(n, "fibonacci")),
        "nested cycles, doubling": (t, lambda n: nested_cycles(n, "double")),
        "nested cycles, weights i": (t, lambda n: nested_cycles(n, "one")),
        "cycles at a hub, weights i": (t, lambda n: cycles_at_a_hub(n, "one")),
        "cycles at a hub, Fibonacci": (t, lambda n: cycles_at_a_hub(n, "fibonacci")),
        "two hubs, paths of 1, all 1": (p, lambda n: two_hubs(n, 1, always(1))),
        "two hubs, paths of 1, weights i": (t, lambda n: two_hubs(n, 1, lambda p, q: p + 1)),
        "two hubs, paths of 2, weights i": (t, lambda n: two_hubs(n, 2, lambda p, q: p + 1)),
        "two hubs, paths of 5, weights i": (t, lambda n: two_hubs(n, 5, lambda p, q: p + 1)),
        "two hubs, paths of 3, products": (t, lambda n: two_hubs(n, 3, lambda p, q: p * (q + 1) + 1)),
        "random, all 1": (p, lambda n: random(n, 3 * n, 16, always(1))),
        "random, drawn": (p, lambda n: random(n, 3 * n, 17, drawn(18))),
        "random, drawn, half": (t, lambda n: some(random(n, 3 * n, 17, drawn(18)), 6)),
        "random, 0 and 1": (p, lambda n: random(n, 3 * n, 18, drawn(19, 2))),
        "random, 0 and 1, half": (t, lambda n: some(random(n, 3 * n, 18, drawn(19, 2)), 6)),
        "random, large and 1": (t, lambda n: random(n, 3 * n, 19, lambda k: 1 + drawn(k, 2)() * (big - 1))),
        "random, sparse, half": (t, lambda n: some(random(n, n * 5 // 4, 20, drawn(21)), 6)),
        "found: rows at hubs": (t, rows_at_hubs),
        "found: two far hubs": (t, lambda n: two_far_hubs(n, 2)),
        "found: petals": (t, petals),
    }


def planar_families():
    families = {
        "ladder, all frustrated, rails 1, rungs 5": lambda n: villain(2, n // 2, 1, 5),
        "ladder, all frustrated, rails 5, rungs 1": lambda n: villain(2, n // 2, 5, 1),
        "ladder, signs drawn, rails 1, rungs 5": lambda n: lattice("square", 2, n // 2, coin(22), always(5)),
        "ladder, rails drawn, rungs large": lambda n: lattice("square", 2, n // 2, rowwise_drawn(23), always(2**20)),
        "ladder, rails 1, rungs i": lambda n: lattice("square", 2, n // 2, rowwise(1), lambda r, c: 1 + c),
        "ladder, rails i, rungs large": lambda n: lattice("square", 2, n // 2, lambda r, c: (1 + c) * (1 if r else -1), always(2**20)),
        "triangular strip, all frustrated": lambda n: antiferromagnet(2, n // 2),
        "triangular strip, weak rails": lambda n: antiferromagnet(2, n // 2, 1, 5),
        "triangular strip, strong rails": lambda n: antiferromagnet(2, n // 2, 5, 1),
        "triangular strip, rails i": lambda n: lattice("triangular", 2, n // 2, lambda r, c: -1 - c, always(-2**20), always(-2**20)),
        "Villain's square": lambda n: villain(math.isqrt(n), math.isqrt(n)),
        "Villain's square, weak rows": lambda n: villain(math.isqrt(n), math.isqrt(n), 1, 5),
        "triangular antiferromagnet": lambda n: antiferromagnet(math.isqrt(n), math.isqrt(n)),
        "triangular antiferromagnet, weak rows": lambda n: antiferromagnet(math.isqrt(n), math.isqrt(n), 1, 5),
        "square, signs drawn": lambda n: signs("square", math.isqrt(n), math.isqrt(n), 24),
        "square, drawn": lambda n: signs("square", math.isqrt(n), math.isqrt(n), 25, 2**20),
        "triangular, signs drawn": lambda n: signs("triangular", math.isqrt(n), math.isqrt(n), 26),
        "triangular, drawn": lambda n: signs("triangular", math.isqrt(n), math.isqrt(n), 27, 2**20),
        "hexagonal, drawn": lambda n: signs("hexagonal", math.isqrt(n), math.isqrt(n), 28, 2**20),
        "square, large and 1": lambda n: two_sizes("square", math.isqrt(n), 29, LARGE),
        "triangular, large and 1": lambda n: two_sizes("triangular", math.isqrt(n), 30, LARGE // 2),
        "square, zeros and signs drawn": lambda n: lattice("square", math.isqrt(n), math.isqrt(n), *[coin_or_zero(k) for k in (35, 36)]),
        "square, a hole of zeros": lambda n: hole(math.isqrt(n), 37),
        "cylinder of 2 rows, weak rings": lambda n: lattice("cylinder", 2, n // 2, rowwise(1), always(5)),
        "cylinder of 3 columns, signs drawn": lambda n: signs("cylinder", n // 3, 3, 31),
        "cylinder, drawn": lambda n: signs("cylinder", math.isqrt(n), math.isqrt(n), 32, 2**20),
        "one ring": lambda n: ring(n, lambda i: 1 + i),
        "polygon in triangles at a spin, rim 1": lambda n: polygon_fan(n, always(1), always(5)),
        "polygon in triangles at a spin, rim i": lambda n: polygon_fan(n, lambda i: 1 + i, always(5000)),
        "polygon in a strip, rim 1": lambda n: polygon_strip(n, always(1), always(5)),
        "polygon in a strip, rim i": lambda n: polygon_strip(n, lambda i: 1 + i, always(5000)),
        "polygon in drawn triangles, rim 1": lambda n: polygon_drawn(n, 33, always(1), always(5)),
        "polygon in drawn triangles, drawn": lambda n: polygon_drawn(n, 34, lambda i: 1 + drawn(i)(), lambda k: 1 + drawn(-k)()),
    }
    for kind, rows in (("square", 2), ("square", 4), ("square", 32), ("triangular", 2), ("cylinder", 4)):
        families[f"{kind}, {rows} rows, drawn"] = lambda n, kind=kind, rows=rows: signs(kind, rows, n // rows, 38, 2**20)
    for kind in ("square", "triangular", "cylinder"):
        families[f"{kind}, of many sizes"] = lambda n, kind=kind: tailed(kind, math.isqrt(n), math.isqrt(n), 39)
    families["triangular, 2 rows, of many sizes"] = lambda n: tailed("triangular", 2, n // 2, 40)
    families["polygon in triangles at a spin, drawn"] = lambda n: polygon_fan(n, lambda i: 1 + drawn(i)(), lambda k: 1 + drawn(-k)())
    for name, sizes in (("signs drawn", lambda: always(1)), ("drawn", lambda: drawn(41)), ("of many sizes", lambda: powers(41))):
        families[f"stacked triangles, {name}"] = lambda n, sizes=sizes: drawn_from(n, stacked(n, 42), sizes(), 43)
        families[f"dual of stacked triangles, {name}"] = lambda n, sizes=sizes: drawn_from(
            2 * (n // 2), dual_faces(stacked(n // 2 + 2, 44)), sizes(), 45)
        families[f"squares with drawn diagonals, {name}"] = lambda n, sizes=sizes: drawn_from(
            math.isqrt(n)**2, crossed_squares(math.isqrt(n), 46), sizes(), 47)
    families["wheel of spins, drawn"] = lambda n: drawn_from(
        n, [[0, x, x % (n - 1) + 1] for x in range(1, n)] + [list(range(n - 1, 0, -1))], drawn(48), 49)
    families["cylinder of 2 rows, drawn"] = lambda n: signs("cylinder", 2, n // 2, 50, 2**20)
    for rows in range(2, 9):
        families[f"Villain's strip of {rows} rows"] = lambda n, rows=rows: villain(rows, n // rows)
        families[f"triangular strip of {rows} rows"] = lambda n, rows=rows: antiferromagnet(rows, n // rows)
    for rows in (3, 4, 8):
        families[f"Villain's strip of {rows} rows, weak rails"] = lambda n, rows=rows: villain(rows, n // rows, 1, 5)
    return families


def coin(seed):
    """1 or -1, drawn."""
    below = generator(seed)
    return lambda r, c: 1 if below(2) else -1


def coin_or_zero(seed):
    """0, 1 or -1, drawn."""
    below = generator(seed)
    return lambda r, c: below(3) - 1


def hole(side, seed):
    """Drawn signs round a square of zeros, which makes its faces one."""
    sign = coin(seed)
    coupling = lambda r, c: 0 if side // 8 < min(r, c) and max(r, c) < side - side // 8 else sign(r, c)
    return lattice("square", side, side, coupling, coupling)


def rowwise_drawn(seed):
    """Drawn sizes, negative in every other row."""
    below = generator(seed)
    return lambda r, c: (1 + below(2**20)) * (1 if r % 2 else -1)


def families():
    """Each family by its name: the commands that it is for, and what makes one."""
    named = dict(graph_families())
    for name, make in planar_families().items():
        named[name] = (("ground",), make)
    for k, line in enumerate(FOUND_GRAPHS):
        named[f"found: graph {k}"] = (("tjoin",), lambda n, line=line: pattern(line).graph(n))
    for k, line in enumerate(FOUND_STRIPS):
        named[f"found: strip {k}"] = (("ground",), lambda n, line=line: strip_pattern(line).instance(n))
    return named
