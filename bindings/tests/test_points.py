"""Straight-line drawings: the same energies in each order of the bonds and in each rotation of the plane,
and which pairs cross."""

import itertools
import math
import random
import unittest
from fractions import Fraction

import ising2d
from ising2d import Graph, NotPlanar
from test_calls import CASES

try:
    import numpy
    import scipy.spatial as spatial
except ImportError:
    spatial = None

MANY = min(CASES, 300)
# Rotations by these angles are exact: cosine and sine of Pythagorean triples.
TURNS = ((1, 0), (0, 1), (-1, 0), (0, -1), (Fraction(3, 5), Fraction(4, 5)), (Fraction(-5, 13), Fraction(12, 13)))


def sign(value):
    return (value > 0) - (value < 0)


def turn(a, b, c):
    return sign((b[0] - a[0]) * (c[1] - a[1]) - (b[1] - a[1]) * (c[0] - a[0]))


def is_on(p, q, x):
    return turn(p, q, x) == 0 and min(p, q) <= x <= max(p, q)


def meet(points, one, other):
    """Whether two bonds share a point that is not a common end."""
    (p, q), (r, s) = ([points[spin] for spin in bond] for bond in (one, other))
    if set(one) == set(other):
        return False
    common = set(one) & set(other)
    if common:
        (end,) = common
        first, second = (points[next(spin for spin in bond if spin != end)] for bond in (one, other))
        return is_on(points[end], first, second) or is_on(points[end], second, first)
    if turn(p, q, r) * turn(p, q, s) < 0 and turn(r, s, p) * turn(r, s, q) < 0:
        return True
    return any((is_on(p, q, r), is_on(p, q, s), is_on(r, s, p), is_on(r, s, q)))


def is_drawing(points, bonds):
    """Whether bonds meet only at their ends."""
    lies_on = any(is_on(*(points[spin] for spin in bond), points[x]) for bond in bonds for x in range(len(points)) if x not in bond)
    pairs = itertools.combinations(bonds, 2)
    return len(set(points)) == len(points) and not lies_on and not any(meet(points, *pair) for pair in pairs)


def random_drawing(source):
    """Points and bonds without crossings, some of them parallel."""
    points = list({(source.randint(0, 6), source.randint(0, 6)) for _ in range(source.randint(2, 9))})
    bonds = []
    for bond in source.sample(list(itertools.permutations(range(len(points)), 2)), min(40, len(points) * (len(points) - 1))):
        if is_drawing(points, [*bonds, bond]):
            bonds += [bond] * source.choice((1, 1, 1, 2))
    return points, bonds


class Points(unittest.TestCase):
    def test_orders_and_rotations(self):
        source = random.Random(71)
        for case in range(MANY):
            points, bonds = random_drawing(source)
            couplings = [source.randint(-5, 5) for _ in bonds]
            with self.subTest(case=case, points=points, bonds=bonds):
                self.compare(source, points, bonds, couplings)

    def compare(self, source, points, bonds, couplings):
        ends = list(bonds)
        least = min(
            -sum(j * s[u] * s[v] for (u, v), j in zip(ends, couplings))
            for s in itertools.product((1, -1), repeat=len(points))
        )
        for c, s in TURNS:
            own = [(c * x - s * y, s * x + c * y) for x, y in points]
            order = source.sample(range(len(bonds)), len(bonds))
            shuffled = [bonds[k] if source.random() < 0.5 else bonds[k][::-1] for k in order]
            graph = Graph.from_points(own, shuffled, [couplings[k] for k in order])
            found = graph.ground()
            self.assertEqual(found.energy, least)
            self.assertTrue(found.check())

    def test_pairs_that_meet_are_named(self):
        source, refused = random.Random(72), 0
        for case in range(10 * MANY):
            size = source.choice((2, 3, 6, 20))
            points = [(source.randint(0, size), source.randint(0, size)) for _ in range(source.randint(2, 7))]
            bonds = [source.sample(range(len(points)), 2) for _ in range(source.randint(0, 6))]
            bonds = [tuple(bond) for bond in bonds if points[bond[0]] != points[bond[1]]]
            with self.subTest(case=case, points=points, bonds=bonds):
                try:
                    Graph.from_points(points, bonds, [1] * len(bonds))
                    self.assertTrue(is_drawing(points, bonds))
                except NotPlanar as fault:
                    refused += 1
                    self.named(points, bonds, fault.sentence.split())
        self.assertGreater(refused, MANY)

    def named(self, points, bonds, words):
        numbers = [int(word) for word in words if word.isdigit()]
        if words[0] == "bonds":
            self.assertTrue(meet(points, *(bonds[k] for k in numbers)))
        elif "on" in words:
            self.assertTrue(is_on(*(points[spin] for spin in bonds[numbers[1]]), points[numbers[0]]))
        else:
            self.assertEqual(points[numbers[0]], points[numbers[1]])

    def test_floats_are_taken_exactly(self):
        # The third point lies beside the bond by less than any rounding of products would tell.
        far = 2.0**30
        tiny = math.nextafter(far, math.inf) - far
        points = [(0.0, 0.0), (2 * far, 2 * far), (far, far + tiny)]
        Graph.from_points(points, [(0, 1), (0, 2)], [1, 1])
        with self.assertRaisesRegex(NotPlanar, "point 2 lies on bond 0"):
            Graph.from_points([*points[:2], (far, far)], [(0, 1)], [1])

    def test_a_kagome_lattice(self):
        size, points, place = 4, [], {}
        for r, c in itertools.product(range(size), repeat=2):
            for k, (x, y) in enumerate(((0, 0), (1, 0), (0, 1))):
                place[r, c, k] = len(points)
                # Skewed, so that the coordinates are whole.
                points.append((2 * c + x, 2 * r + y))
        bonds = []
        for r, c in itertools.product(range(size), repeat=2):
            a, b, d = (place[r, c, k] for k in range(3))
            bonds += [(a, b), (a, d), (b, d)]
            for other, ends in (((r, c + 1), (1, 0)), ((r + 1, c), (2, 0)), ((r - 1, c + 1), (1, 2))):
                if (*other, 0) in place:
                    bonds.append((place[r, c, ends[0]], place[(*other, ends[1])]))
        found = Graph.from_points(points, bonds, [-1] * len(bonds)).ground()
        self.assertTrue(found.check())
        self.assertTrue(found.svg().startswith("<svg"))

    def test_real_couplings_and_wrong_ones(self):
        points, bonds = [(0, 0), (1, 0), (0, 1)], [(0, 1), (1, 2), (2, 0)]
        found = Graph.from_points(points, bonds, [0.5, 0.25, -0.125], real=True).ground()
        self.assertEqual(found.real.energy, -0.625)
        self.assertEqual(Graph.from_points(points, bonds, [1, 1, 1], seam=[0]).wall().difference, 2)
        for call, kind in (
            (lambda: Graph.from_points(points, bonds, [0.5, 1, 1]), TypeError),
            (lambda: Graph.from_points(points, bonds, [1, 1]), ValueError),
            (lambda: Graph.from_points(points, [(0, 3)], [1]), ValueError),
            (lambda: Graph.from_points(points, [(0, 0)], [1]), ValueError),
            (lambda: Graph.from_points([(0, 0, 0)], [], []), TypeError),
            (lambda: Graph.from_points([(math.nan, 0)], [], []), ValueError),
            (lambda: Graph.from_points([(True, 0)], [], []), TypeError),
            (lambda: Graph.from_points("ab", [], []), TypeError),
        ):
            with self.assertRaises(kind):
                call()

    @unittest.skipIf(spatial is None, "scipy is not there")
    def test_a_delaunay_triangulation(self):
        source = numpy.random.default_rng(73)
        points = source.random((2000, 2))
        triangles = spatial.Delaunay(points).simplices
        sides = numpy.sort(numpy.concatenate([triangles[:, pair] for pair in ([0, 1], [1, 2], [0, 2])]), axis=1)
        bonds = numpy.unique(sides, axis=0)
        graph = Graph.from_points(points, bonds, source.normal(size=len(bonds)), real=True)
        self.assertTrue(graph.ground().check())
        self.assertEqual(graph.ground().real.energy, graph.ground(nest=True).real.energy)


if __name__ == "__main__":
    unittest.main()
