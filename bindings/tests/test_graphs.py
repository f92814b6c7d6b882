"""General graphs by numbers beside runs of the program's text form: worked examples, random drawings on
the sphere, and wrong numbers in each argument."""

import json
import random
import unittest

import ising2d
from ising2d import Graph, Refusal
from test_calls import CASES, forged, verdict_by_text

# The places of the darts at a spin, in their cyclic order, as steps in rows and columns.
_STEPS = ((0, 1), (-1, 0), (-1, -1), (0, -1), (1, 0), (1, 1))


def records(graph):
    """The graph as a text."""
    lines = [f"general,{graph.n}"]
    lines += [f"bond,{u},{v},{coupling}" for u, v, coupling in graph.bonds]
    for spin, darts in enumerate(graph.rotation):
        if darts:
            lines.append(",".join(map(str, ("rot", spin, *darts))))
    if graph.seam:
        lines.append(",".join(map(str, ("seam", *graph.seam))))
    return "\n".join(lines + ["end", ""])


def as_json(graph):
    """The graph as one JSON object."""
    return json.dumps(
        {
            "kind": "general",
            "n": graph.n,
            "bonds": [list(bond) for bond in graph.bonds],
            "rotation": [list(darts) for darts in graph.rotation],
            "seam": list(graph.seam),
        }
    )


def rows_of(command, graph):
    """The rows that the program prints for the text form."""
    found = ising2d.run([command], records(graph))
    assert found.status == 0, found
    return [line.split(",") for line in found.text.splitlines()]


def drawn(source):
    """A random graph on the sphere: some bonds of a triangular grid, each once or twice, with spins,
    bonds and ends in a random order."""
    rows, cols = source.randint(1, 4), source.randint(1, 5)
    names = source.sample(range(rows * cols), rows * cols)
    size, keep = source.choice((1, 2, 10, 2**30)), source.choice((0.3, 0.7, 1.0))
    placed = [
        (r, c, step)
        for r in range(rows)
        for c in range(cols)
        for step in (0, 4, 5)
        if r + _STEPS[step][0] < rows and c + _STEPS[step][1] < cols and source.random() < keep
    ]
    placed += [place for place in placed if source.random() < 0.1]
    source.shuffle(placed)
    bonds, at = [], {}
    for k, (r, c, step) in enumerate(placed):
        other = (r + _STEPS[step][0], c + _STEPS[step][1])
        turned = source.random() < 0.5
        ends = (names[r * cols + c], names[other[0] * cols + other[1]])
        bonds.append((*(ends[::-1] if turned else ends), source.randint(-size, size)))
        # Bonds between the same spins lie side by side, so that their order at the other end is turned.
        at.setdefault((r, c, step), []).append(2 * k + turned)
        at.setdefault((*other, (step + 3) % 6), []).insert(0, 2 * k + (not turned))
    rotation = [[] for _ in names]
    for r in range(rows):
        for c in range(cols):
            darts = [dart for step in range(6) for dart in at.get((r, c, step), [])]
            turn = source.randrange(len(darts)) if darts else 0
            rotation[names[r * cols + c]] = darts[turn:] + darts[:turn]
    seam = source.sample(range(len(bonds)), source.randint(0, min(3, len(bonds))))
    return Graph(rows * cols, bonds, rotation, seam)


def spoiled(source, graph):
    """The graph, perhaps with one wrong number."""
    n, bonds = graph.n, [list(bond) for bond in graph.bonds]
    rotation, seam = [list(darts) for darts in graph.rotation], list(graph.seam)
    change = source.randrange(9)
    spin = source.randrange(len(rotation))
    if change == 0:
        n = source.choice((0, n - 1, n + 1, 2**22 + 1))
    elif change == 1 and bonds:
        bonds[source.randrange(len(bonds))][source.randrange(2)] = source.choice((0, n, n - 1, 2**32 - 1))
    elif change == 2 and bonds:
        bonds[source.randrange(len(bonds))][2] = source.choice((-(2**63), 2**63 - 1, 2**44))
    elif change == 3:
        rotation[spin].append(source.choice((0, 1, 2 * len(bonds), 2**32 - 1)))
    elif change == 4:
        rotation[spin] = rotation[spin][1:]
    elif change == 5:
        source.shuffle(rotation[spin])
    elif change == 6:
        seam.insert(0, source.choice((0, len(bonds), 2**32 - 1)))
    elif change == 7:
        seam += seam[:1]
    else:
        rotation = rotation[:-1]
    return Graph(n, [tuple(bond) for bond in bonds], rotation, seam)


class WorkedExamples(unittest.TestCase):
    def test_a_pair(self):
        pair = Graph(2, [(0, 1, 7)], [[0], [1]], seam=[0])
        self.assertEqual(pair.ground().energy, -7)
        self.assertEqual(pair.wall(), ising2d.Wall(-7, -7, 0))
        self.assertEqual(list(pair.costs()), [14])
        self.assertEqual(list(pair.clusters()), [0, 0])
        self.assertTrue(pair.check(-7, [1, 1], []))

    def test_a_spin_alone(self):
        alone = Graph(1, [], [[]])
        self.assertEqual((alone.ground().energy, list(alone.ground().spins)), (0, [1]))
        self.assertEqual((len(alone.costs()), list(alone.clusters())), (0, [0]))

    def test_a_torus_is_checked_and_not_solved(self):
        torus = Graph(2, [(0, 1, 1)] * 3, [[0, 2, 4], [1, 3, 5]])
        with self.assertRaises(Refusal) as caught:
            torus.ground()
        self.assertEqual((caught.exception.number, caught.exception.kept), (15, (0,)))
        self.assertTrue(torus.check(-3, [1, 1], []))


class RandomGraphs(unittest.TestCase):
    def test_numbers_and_text_agree(self):
        source = random.Random(3)
        for case in range(CASES):
            graph = drawn(source)
            with self.subTest(case=case, graph=graph):
                self.compare(graph)

    def compare(self, graph):
        found = graph.ground()
        self.assertEqual(found.energy, int(rows_of("ground", graph)[0][1]))
        self.assertTrue(graph.check(found.energy, found.spins, found.loops))
        self.assertEqual(list(graph.costs()), [int(row[2]) for row in rows_of("bonds", graph)[:-1]])
        self.assertEqual(list(graph.clusters()), [int(row[2]) for row in rows_of("clusters", graph)[:-1]])
        if graph.seam:
            energies = [int(row[1]) for row in rows_of("wall", graph)[:3]]
            self.assertEqual(graph.wall(), ising2d.Wall(*energies))

    def test_forged_proofs_are_judged_as_by_text(self):
        source = random.Random(4)
        for case in range(CASES):
            graph = drawn(source)
            stated = forged(source, graph.ground())
            with self.subTest(case=case, graph=graph, stated=stated):
                self.assertEqual(graph.check(*stated), verdict_by_text(records(graph), stated))

    def test_wrong_numbers_are_refused_as_in_json(self):
        source, refused = random.Random(5), 0
        for case in range(CASES):
            graph = spoiled(source, drawn(source))
            for command, call in (("ground", graph.ground), ("wall", graph.wall)):
                with self.subTest(case=case, graph=graph, command=command):
                    by_json = ising2d.run([command], as_json(graph))
                    try:
                        call()
                        line = by_json.text if by_json.status == 1 else ""
                        self.assertEqual(line, "")
                    except Refusal as refusal:
                        fields = ("refused", refusal.number, *refusal.kept)
                        self.assertEqual(by_json.text, ",".join(map(str, fields)) + "\n")
                        refused += 1
        self.assertGreater(refused, CASES // 2)

    def test_numbers_that_do_not_cross(self):
        for given in (
            (-1, [], []),
            (2**32, [], []),
            (1, [(0, -1, 1)], [[0]]),
            (2, [(0, 1, 2**63)], [[0], [1]]),
            (1, [], [[-1]]),
            (1, [], [[]], [2**32]),
        ):
            with self.subTest(given=given), self.assertRaises(OverflowError):
                Graph(*given)

    def test_a_graph_is_not_changed(self):
        bonds = [[0, 1, 7]]
        graph = Graph(2, bonds, [[0], [1]])
        bonds[0][2] = 9
        self.assertEqual((graph.bonds, graph.rotation, graph.seam), ([(0, 1, 7)], [[0], [1]], ()))
        with self.assertRaises(AttributeError):
            graph.n = 3
        with self.assertRaises(ValueError):
            Graph(3, [(0, 1, 7)], labels=("x",))


if __name__ == "__main__":
    unittest.main()
