"""The calls on weighted graphs by numbers, straight through ctypes: random graphs beside all their joins, nests
judged by plain arithmetic, many lists beside one after another, refusals, and proofs that are changed."""
import ctypes
import itertools
import os
import random
import unittest

LIBRARY = ctypes.CDLL(os.environ["ISING2D_LIBRARY"])
NONE = 2**32 - 1
CASES = int(os.environ.get("CASES", "2000"))
U32, I64, U64, SIZE = ctypes.c_uint32, ctypes.c_int64, ctypes.c_uint64, ctypes.c_size_t


class Answer(ctypes.Structure):
    _fields_ = [("weight", I64), ("edge_count", SIZE), ("region_count", SIZE), ("node_count", SIZE)]


def array(kind, items):
    """An array with its length, as a call takes them; of no items one that is not read."""
    items = list(items)
    return (kind * max(len(items), 1))(*items), SIZE(len(items))


class Line:
    """Room for the line of a refusal."""

    def __init__(self):
        self.text, self.written = (ctypes.c_uint8 * 128)(), SIZE(0)

    def passed(self):
        return self.text, SIZE(128), ctypes.byref(self.written)

    def said(self):
        return bytes(self.text[: self.written.value]).decode()


def network(nodes, edges):
    return (
        U32(nodes),
        *array(U32, (end for a, b, _ in edges for end in (a, b))),
        *array(I64, (w for _, _, w in edges)),
    )


def join(nodes, edges, terminals, room=None):
    """Status, and the join with its nest or the line of the refusal."""
    many = room if room is not None else len(edges)
    regions = room if room is not None else 2 * len(terminals) + 1
    answer, line = Answer(), Line()
    lists = [(U32 * max(many, 1))(), (U32 * max(regions, 1))(), (U64 * max(regions, 1))()]
    lists += [(U32 * max(nodes, 1))(), (U64 * max(nodes, 1))()]
    sizes = [many, regions, regions, nodes, nodes]
    rooms = [it for pair in zip(lists, map(SIZE, sizes)) for it in pair]
    status = LIBRARY.ising2d_c_join(
        *network(nodes, edges), *array(U32, terminals), ctypes.byref(answer), *rooms, *line.passed()
    )
    if status != 0:
        return status, line.said()
    counts = [answer.edge_count, answer.region_count, answer.region_count, answer.node_count, answer.node_count]
    return 0, (answer.weight, *(list(it)[: min(n, room)] for it, n, room in zip(lists, counts, sizes)))


def check(nodes, edges, terminals, chosen, nest):
    line = Line()
    kinds = (U32, U32, U64, U32, U64)
    lists = [it for kind, items in zip(kinds, (chosen, *nest)) for it in array(kind, items)]
    status = LIBRARY.ising2d_c_join_check(
        *network(nodes, edges), *array(U32, terminals), *lists, *line.passed()
    )
    return status, line.said()


def joins(nodes, edges, lists, starts=None, room=None):
    entries = [t for terminals in lists for t in terminals]
    if starts is None:
        starts = [0, *itertools.accumulate(map(len, lists))]
    many = room if room is not None else len(edges) * len(lists)
    weights, edge_starts, found = (I64 * (len(lists) + 1))(), (SIZE * (len(lists) + 2))(), (U32 * max(many, 1))()
    count, line = SIZE(0), Line()
    status = LIBRARY.ising2d_c_joins(
        *network(nodes, edges), *array(SIZE, starts), *array(U32, entries), weights, SIZE(len(lists)), edge_starts,
        SIZE(len(lists) + 1), found, SIZE(many), ctypes.byref(count), *line.passed()
    )
    if status != 0:
        return status, line.said()
    parts = [list(found[edge_starts[i] : edge_starts[i + 1]]) for i in range(len(lists))]
    return 0, (list(weights)[: len(lists)], parts, count.value)


def odd_nodes(edges, chosen):
    odd = set()
    for e in chosen:
        odd ^= {edges[e][0]}
        odd ^= {edges[e][1]}
    return odd


def least(edges, terminals):
    """The least weight of all joins, by trying all sets of edges."""
    best = None
    for mask in range(1 << len(edges)):
        chosen = [e for e in range(len(edges)) if mask >> e & 1]
        weight = sum(edges[e][2] for e in chosen)
        if (best is None or weight < best) and odd_nodes(edges, chosen) == set(terminals):
            best = weight
    return best


def nest_holds(nodes, edges, terminals, chosen, nest):
    """Whether the nest proves the join, by its definition."""
    parents, radii, regions, at_radii = nest
    if chosen != sorted(set(chosen)) or any(e >= len(edges) for e in chosen):
        return False
    if len(regions) != nodes or any(p != NONE and not r < p < len(parents) for r, p in enumerate(parents)):
        return False

    def over(region):
        found = []
        while region != NONE:
            found.append(region)
            region = parents[region]
        return found

    heights = []
    for region, at in zip(regions, at_radii):
        if not (region < len(parents) and at <= radii[region] if region != NONE else at == 0):
            return False
        heights.append({r: radii[r] - (at if r == region else 0) for r in over(region)})
    inside = [sum(r in heights[t] for t in terminals) for r in range(len(parents))]
    climbs = [
        sum(abs(heights[a].get(r, 0) - heights[b].get(r, 0)) for r in {*heights[a], *heights[b]}) for a, b, _ in edges
    ]
    return (
        all(at_radii[t] == 0 for t in terminals)
        and all(count % 2 == 1 for count, radius in zip(inside, radii) if radius > 0)
        and all(climb <= 4 * w for climb, (_, _, w) in zip(climbs, edges))
        and odd_nodes(edges, chosen) == set(terminals)
        and sum(radii) == 4 * sum(edges[e][2] for e in chosen)
    )


def drawn(source, most_nodes=6, most_edges=9, most=5):
    """A connected multigraph, with loops."""
    nodes = source.randint(1, most_nodes)
    edges = [(source.randrange(x), x, source.randint(0, most)) for x in range(1, nodes)]
    for _ in range(source.randint(0, most_edges - len(edges))):
        edges.append((source.randrange(nodes), source.randrange(nodes), source.randint(0, most)))
    source.shuffle(edges)
    return nodes, edges


def picked(source, nodes):
    return source.sample(range(nodes), 2 * source.randint(0, nodes // 2))


class Calls(unittest.TestCase):
    def test_small_graphs_beside_all_joins(self):
        source = random.Random(1)
        for _ in range(CASES):
            nodes, edges = drawn(source)
            terminals = picked(source, nodes)
            status, (weight, chosen, *nest) = join(nodes, edges, terminals)
            self.assertEqual(status, 0)
            self.assertEqual(chosen, sorted(set(chosen)))
            self.assertEqual(odd_nodes(edges, chosen), set(terminals))
            self.assertEqual(weight, sum(edges[e][2] for e in chosen))
            self.assertEqual(weight, least(edges, terminals))
            self.assertTrue(nest_holds(nodes, edges, terminals, chosen, nest))
            self.assertEqual(check(nodes, edges, terminals, chosen, nest), (0, ""))

    def test_changed_proofs_are_judged_by_the_definition(self):
        source = random.Random(2)
        verdicts = [0, 0]
        for _ in range(CASES):
            nodes, edges = drawn(source)
            terminals = picked(source, nodes)
            _, (_, chosen, *nest) = join(nodes, edges, terminals)
            changed = source.choice([it for it in (chosen, *nest) if it] or [chosen])
            if changed:
                place = source.randrange(len(changed))
                changed[place] = source.choice([0, 1, 2, NONE, changed[place] + 1, max(changed[place] - 1, 0)]) % 2**32
            wanted = 0 if nest_holds(nodes, edges, terminals, chosen, nest) else 3
            verdicts[wanted == 3] += 1
            self.assertEqual(check(nodes, edges, terminals, chosen, nest), (wanted, ""))
        self.assertTrue(all(verdicts))

    def test_many_lists_beside_one_after_another(self):
        source = random.Random(3)
        for _ in range(CASES // 20):
            nodes, edges = drawn(source, 30, 90, 9)
            lists = [picked(source, nodes) for _ in range(source.randint(0, 8))]
            lists += lists[::-1]
            status, (weights, parts, count) = joins(nodes, edges, lists)
            self.assertEqual((status, count), (0, sum(map(len, parts))))
            for terminals, weight, chosen in zip(lists, weights, parts):
                self.assertEqual(odd_nodes(edges, chosen), set(terminals))
                self.assertEqual(weight, sum(edges[e][2] for e in chosen))
                self.assertEqual(weight, join(nodes, edges, terminals)[1][0])

    def test_refusals_in_their_order(self):
        line = [(0, 1, 1), (1, 2, 1)]
        far = [(0, 1, 1), (1, 7, 1)]
        for nodes, edges, terminals, said in [
            (0, far, [9], "19,17,0"),
            (2**22 + 1, far, [9, 9], "7,4194305"),
            (3, far, [9], "19,18,1"),
            (3, [(0, 1, -1), *far], [9], "19,18,0"),
            (3, line, [9], "22,9"),
            (3, line, [1, 1, 9], "22,1"),
            (3, line, [1], "21,1"),
            (3, [(0, 1, 2**44), (0, 0, 1)], [1], "21,1"),
            (3, [(0, 1, 2**44), (0, 0, 1)], [0, 1], "13,17592186044417"),
            (3, [(0, 1, 2**44)], [0, 1], "23,2"),
        ]:
            told = f"refused,{said}\n"
            self.assertEqual(join(nodes, edges, terminals), (1, told))
            self.assertEqual(check(nodes, edges, terminals, [0], ([], [0], [], [])), (1, told))
            self.assertEqual(joins(nodes, edges, [[], terminals]), (1, told))
        self.assertEqual(check(3, line, [0, 1], [0], ([], [0], [], [0])), (1, "refused,19,12,0\n"))
        self.assertEqual(check(3, line, [0, 1], [0], ([], [], [], [0])), (1, "refused,19,13,0\n"))
        for starts, said in [([], 0), ([1], 0), ([0, 3, 2], 2), ([0, 1], 1), ([0, 2, 3], 2)]:
            self.assertEqual(joins(3, line, [[0, 9]], starts), (1, f"refused,19,19,{said}\n"))
        self.assertEqual(joins(3, line, [[0, 1], [2], [9, 9]]), (1, "refused,21,1\n"))
        self.assertEqual(joins(3, line, [[0, 1], [9], [2]]), (1, "refused,22,9\n"))

    def test_room_that_is_too_small(self):
        line = [(k, k + 1, 1) for k in range(9)]
        _, (weight, chosen, *nest) = join(10, line, [0, 9])
        _, (again, first, *_) = join(10, line, [0, 9], room=4)
        self.assertEqual((weight, chosen), (9, list(range(9))))
        self.assertEqual((again, first), (9, list(range(4))))
        self.assertEqual(joins(10, line, [[0, 9]], room=2)[1][2], 9)

    def test_a_large_grid(self):
        source, side = random.Random(4), 60
        edges = [(x, x + 1, source.randint(0, 99)) for x in range(side * side) if (x + 1) % side]
        edges += [(x, x + side, source.randint(0, 99)) for x in range(side * (side - 1))]
        terminals = source.sample(range(side * side), 700)
        status, (weight, chosen, *nest) = join(side * side, edges, terminals)
        self.assertEqual(status, 0)
        self.assertEqual(weight, sum(edges[e][2] for e in chosen))
        self.assertTrue(nest_holds(side * side, edges, terminals, chosen, nest))


if __name__ == "__main__":
    unittest.main()
