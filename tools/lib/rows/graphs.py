"""Joins and closed walks in weighted graphs. The weights were worked by hand: the cuts of a proof weigh twice as much
as the T-join, or as what the walk goes along a second time."""
import functools
import itertools
import operator

import rows

# A command, a graph, the front of the text, and the weight of all cuts.
WORKED = [
    ("tjoin", "graph,3\nedge,0,1,2\nedge,1,2,3\nedge,0,2,4\nterm,0,2\nend\n", "weight,4\nedges,2\n", 8),
    ("tjoin", "graph,2\nedge,0,1,5\nend\n", "weight,0\nedges\nend\n", 0),
    (
        "tjoin",
        "# the terminals may stand in any order\ngraph,3\nterm,2,1\nedge,0,1,2\nedge,0,2,3\nend\n",
        "weight,5\nedges,0,1\n",
        10,
    ),
    ("postman", "graph,2\nedge,0,1,3\nend\n", "weight,6\nstep,0,1\nstep,0,0\ncut,", 6),
    ("postman", "graph,1\nend\n", "weight,0\nend\n", 0),
    ("postman", "graph,1\nedge,0,0,7\nend\n", "weight,7\nstep,0,0\nend\n", 0),
    (
        "postman",
        "# seven bridges: land 0 and 1 on two sides of the island 2, and 3 behind it\ngraph,4\nedge,0,2,1\nedge,0,2,1\nedge,1,2,1\nedge,1,2,1\nedge,0,3,1\nedge,1,3,1\nedge,2,3,1\nend\n",
        "weight,9\nstep,",
        4,
    ),
]

# Graphs, each with the weight and the number of steps of a tour: the seven bridges; one edge; no edge; an edge from a
# node to itself; parallel edges, two and three; a triangle with a tail; a graph of weight 0.
TOURS = [
    ("graph,4\nedge,0,1,1\nedge,0,1,1\nedge,0,2,1\nedge,0,2,1\nedge,0,3,1\nedge,1,3,1\nedge,2,3,1\nend\n", 9, 9),
    ("graph,2\nedge,0,1,3\nend\n", 6, 2),
    ("graph,1\nend\n", 0, 0),
    ("graph,1\nedge,0,0,7\nend\n", 7, 1),
    ("graph,2\nedge,0,1,3\nedge,1,0,5\nend\n", 8, 2),
    ("graph,2\nedge,0,1,3\nedge,1,0,5\nedge,0,1,4\nend\n", 15, 4),
    ("graph,4\nedge,0,1,2\nedge,1,2,3\nedge,2,0,4\nedge,2,3,10\nend\n", 29, 5),
    ("graph,3\nedge,0,1,0\nedge,1,2,0\nedge,2,2,0\nend\n", 0, 5),
]

# Graphs of at most ten edges: two nodes at distance 0, parallel edges, edges from a node to itself, a tree, a ring,
# and graphs whose nodes all are terminals. The number of nodes, the edges, and the terminals.
SMALL = [
    (3, [(0, 1, 0), (1, 2, 0), (2, 2, 0), (0, 2, 0)], [0, 2]),
    (4, [(0, 0, 0), (0, 1, 7), (1, 0, 7), (1, 2, 0), (2, 3, 4), (3, 2, 3), (3, 3, 9)], [0, 3]),
    (6, [(0, 1, 2), (1, 2, 3), (1, 3, 1), (3, 4, 5), (3, 5, 8)], [0, 2, 4, 5]),
    (6, [(0, 1, 3), (1, 2, 2), (2, 3, 3), (3, 4, 7), (4, 5, 1), (5, 0, 6)], [0, 1, 2, 3, 4, 5]),
    (4, [(0, 1, 3), (1, 2, 2), (2, 3, 3), (3, 0, 7)], [0, 1, 2, 3]),
    (7, [(0, 1, 1), (1, 2, 1), (2, 0, 1), (2, 3, 9), (3, 4, 1), (4, 5, 1), (5, 3, 1), (5, 6, 4), (6, 0, 20)], [0, 1, 2, 3, 4, 5]),
    (5, [(0, 1, 4), (0, 2, 1), (0, 3, 5), (0, 4, 0), (1, 2, 2), (1, 3, 6), (1, 4, 3), (2, 3, 3), (2, 4, 1), (3, 4, 5)], [0, 1, 3, 4]),
]

REFUSED = [
    ("tjoin", "graph,2\nedge,0,1,5\nterm,0\nend\n", "refused,21,1\n"),
    ("tjoin", "graph,2\nedge,0,1,5\nterm,0,0\nend\n", "refused,22,0\n"),
    ("tjoin", "graph,2\nedge,0,1,5\nterm,0,1,2\nend\n", "refused,22,2\n"),
    ("tjoin", "graph,2\nedge,0,1,5\nterm,7,0,0\nend\n", "refused,22,7\n"),
    ("tjoin", "graph,2\nterm,9\nend,9\n", "refused,5,2\n"),
    ("tjoin", "graph,2\nterm\nterm\nend\n", "refused,5,2\n"),
    ("tjoin", "graph,2\nterm,0,x\nend\n", "refused,3,1,2\n"),
    ("tjoin", "graph,2\nedge,0,1,-1\nend\n", "refused,3,1,3\n"),
    ("tjoin", "graph,2\nedge,0,2,1\nend\n", "refused,3,1,2\n"),
    ("tjoin", "graph,2\nedge,0,1\nend\n", "refused,5,1\n"),
    ("tjoin", "graph,0\nend\n", "refused,3,0,1\n"),
    ("tjoin", "graph,2049\nend\n", "refused,7,2049\n"),
    ("tjoin", "graph,2,2\nend\n", "refused,5,0\n"),
    ("tjoin", "general,2\nend\n", "refused,4,0\n"),
    ("tjoin", "graph,2\nedge,0,1,5\n", "refused,2\n"),
    ("tjoin", "", "refused,2\n"),
    ("tjoin", "graph,1\nend\nend\n", "refused,12,2\n"),
    ("tjoin", '{"kind":"square","rows":1,"cols":1,"couplings":[]}\n', "refused,4,0\n"),
    ("tjoin", "graph,3\nterm,1\nedge,0,1,17592186044417\nend\n", "refused,21,1\n"),
    ("tjoin", "graph,3\nedge,0,1,17592186044417\nend\nx\n", "refused,12,3\n"),
    ("tjoin", "graph,3\nedge,0,1,17592186044417\nend\n", "refused,13,17592186044417\n"),
    ("postman", "graph,2\nend\n", "refused,23,1\n"),
    ("postman", "graph,4\nedge,0,2,0\nedge,1,3,0\nend\n", "refused,23,1\n"),
    ("postman", "graph,2\nedge,0,1,5\nterm,0,1\nend\n", "refused,4,2\n"),
    ("postman", "square,1,1\nend\n", "refused,4,0\n"),
]


def cuts_weigh(text):
    """The weights of all cuts of a text together."""
    return sum(int(line.split(b",")[1]) for line in text.splitlines() if line.startswith(b"cut,"))


def cut(words, given, front, cuts):
    """A row that is done: the front of its text, its last line, and the weight of all cuts."""
    def test(run):
        seen = run(words, given.encode())
        good = rows.is_begun(seen, front) and seen[1].endswith(b"end\n") and cuts_weigh(seen[1]) == cuts
        return None if good else seen
    return rows.named(words, given), test


def toured(given, weight, steps):
    """A walk over every edge: its weight and its steps, and twice what is walked a second time as the weight of all cuts."""
    once = sum(int(line.split(",")[3]) for line in given.splitlines() if line.startswith("edge,"))
    def test(run):
        seen = run("postman", given.encode())
        walked = seen[1].count(b"\nstep,") == steps and cuts_weigh(seen[1]) == 2 * (weight - once)
        return None if walked and rows.is_begun(seen, f"weight,{weight}\n") else seen
    return rows.named("postman", given), test


def least_join(edges, terminals):
    """The least weight of all sets of edges that meet just the terminals an odd number of times."""
    weights = []
    for chosen in itertools.product((False, True), repeat=len(edges)):
        taken = list(itertools.compress(edges, chosen))
        odd = functools.reduce(operator.xor, ({a} ^ {b} for a, b, _ in taken), set())
        weights += [sum(weight for _, _, weight in taken)] if odd == set(terminals) else []
    return min(weights)


def least(nodes, edges, terminals):
    """The T-join of a small graph, beside all sets of its edges."""
    lines = [f"graph,{nodes}", *(f"edge,{a},{b},{w}" for a, b, w in edges), f"term,{','.join(map(str, terminals))}", "end"]
    weight = least_join(edges, terminals)
    return cut("tjoin", "\n".join(lines) + "\n", f"weight,{weight}\n", 2 * weight)


def cases():
    for row in WORKED:
        yield cut(*row)
    for row in TOURS:
        yield toured(*row)
    for row in SMALL:
        yield least(*row)
    yield from rows.lines_answered(REFUSED, rows.REFUSED)
