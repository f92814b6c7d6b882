"""Real couplings: rounded ones beside exact fractions over all assignments."""

import itertools
import math
import random
import unittest
from fractions import Fraction

import ising2d
from ising2d import Graph, Lattice
from test_calls import bond_count

try:
    import numpy
except ImportError:
    numpy = None

MANY = 500


def drawn(source):
    """A small lattice with real couplings of several kinds, and its couplings as fractions."""
    kind = source.choice(("square", "triangular", "hexagonal", "cylinder"))
    rows, cols = source.choice(((1, 3), (2, 3), (2, 4), (3, 3)))
    draw = source.choice(
        (
            lambda: source.gauss(0, 1),
            lambda: source.gauss(0, 1) * 2.0 ** source.randint(-40, 40),
            lambda: source.choice((-1, 0, 1)) / 3,
            lambda: Fraction(source.randint(-9, 9), source.randint(1, 9)),
            lambda: source.randint(-4, 4) / 8,
        )
    )
    couplings = [draw() for _ in range(bond_count(kind, rows, cols))]
    scale = source.choice((None, None, 1, 2, 10, Fraction(7, 3), 1000))
    return kind, rows, cols, couplings, scale


class Exact:
    """All assignments of a small instance with their exact energies, as whole numbers of one unit."""

    def __init__(self, ends, n, couplings):
        fractions = [Fraction(x) for x in couplings]
        self.parts = math.lcm(*(x.denominator for x in fractions))
        self.couplings = [int(x * self.parts) for x in fractions]
        self.ends, self.all = ends, []
        for spins in itertools.product((1, -1), repeat=n - 1):
            spins = (1, *spins)
            own = -sum(x * spins[u] * spins[v] for (u, v), x in zip(ends, self.couplings))
            self.all.append((own, spins))

    def least(self):
        return Fraction(min(own for own, _ in self.all), self.parts)

    def of(self, spins):
        own = -sum(x * spins[u] * spins[v] for (u, v), x in zip(self.ends, self.couplings))
        return Fraction(own, self.parts)

    def like_and_unlike(self, bond):
        """The least energies with like and with unlike spins at a bond."""
        u, v = self.ends[bond]
        like = min(own for own, s in self.all if s[u] == s[v])
        unlike = min(own for own, s in self.all if s[u] != s[v])
        return Fraction(like, self.parts), Fraction(unlike, self.parts)


def within(exact, value, error):
    return abs(Fraction(value) - exact) <= Fraction(error)


class Rounded(unittest.TestCase):
    def test_the_true_values_lie_within_the_bounds(self):
        source, certain = random.Random(61), 0
        for case in range(MANY):
            kind, rows, cols, couplings, scale = drawn(source)
            try:
                lattice = Lattice.from_real(kind, rows, cols, couplings, scale)
            except ValueError as fault:
                self.assertRegex(str(fault), "too (small|large)")
                continue
            with self.subTest(case=case, couplings=couplings, scale=scale):
                certain += self.compare(lattice, couplings)
        self.assertGreater(certain, MANY // 10)

    def compare(self, lattice, couplings):
        exact = Exact(lattice.ends(), lattice.n, couplings)
        least, found = exact.least(), lattice.ground()
        self.assertTrue(within(least, found.real.energy, found.real.error))
        self.assertLessEqual(exact.of(found.spins.tolist()) - least, Fraction(found.real.excess))
        costs, turns = lattice.real_costs(), lattice.real_ranges()
        for k, turn in enumerate(turns):
            like, unlike = exact.like_and_unlike(k)
            self.assertTrue(within(abs(like - unlike), float(costs.values[k]), costs.error))
            self.assertTrue(like != unlike or not costs.rigid[k])
            # The least energies without the bond's own coupling.
            x = Fraction(couplings[k])
            at = ((like + x) - (unlike - x)) / 2
            self.assertTrue(within(at, turn.coupling, turn.error))
            self.assertIn(turn.side, ("above" if x > at else "below" if x < at else "at", "unknown"))
        if lattice.seam_bonds():
            self.wall(lattice, couplings, least)
        return int(sum(map(bool, costs.rigid)))

    def wall(self, lattice, couplings, least):
        seam = set(lattice.seam_bonds())
        changed = [-x if k in seam else x for k, x in enumerate(couplings)]
        other = Exact(lattice.ends(), lattice.n, changed).least()
        for found in (lattice.wall(), lattice.wall(states=True)):
            self.assertTrue(within(least, found.real.periodic, found.real.error))
            self.assertTrue(within(other, found.real.antiperiodic, found.real.error))
            self.assertTrue(within(other - least, found.real.difference, found.real.difference_error))

    def test_the_largest_power_of_two(self):
        source = random.Random(62)
        for _ in range(200):
            values = [source.gauss(0, 10.0 ** source.randint(-12, 12)) for _ in range(4)]
            scale = Lattice.from_real("square", 2, 2, values).scale.scale
            for factor, fits in ((1, True), (2, False)):
                total = sum(abs(round(Fraction(x) * scale * factor)) for x in values)
                self.assertEqual(total <= 2**44, fits)

    def test_multiples_of_one_number_lose_nothing(self):
        found = Lattice.from_real("square", 2, 2, [0.75, 1, 0.5, -1.25]).ground()
        self.assertEqual((found.real.energy, found.real.error, found.real.excess), (-2.5, 0.0, 0.0))
        self.assertTrue(found.check())
        self.assertIn("-2.5", repr(found))

    def test_what_is_refused(self):
        for values, scale, part in (
            ([math.nan, 1, 1, 1], None, "nan is not a real number"),
            ([1, math.inf, 1, 1], None, "inf is not a real number"),
            ([1.0, 2, 3, 4], 2.0**60, "too large"),
            ([1e-9, 0, 0, 0], 1, "too small"),
            ([1.0, 2, 3, 4], 0, "above 0"),
        ):
            with self.assertRaisesRegex(ValueError, part):
                Lattice.from_real("square", 2, 2, values, scale)
            if numpy is not None:
                with self.assertRaisesRegex(ValueError, part):
                    Lattice.from_real("square", 2, 2, numpy.array(values), scale)
        for values in (["x"] * 4, [1j] * 4, [True] * 4, {1.0, 2.0}, "1234", 5):
            with self.assertRaises(TypeError, msg=repr(values)):
                Lattice.from_real("square", 2, 2, values)
        with self.assertRaisesRegex(ValueError, "whole numbers"):
            Lattice("square", 1, 2, [1]).real_costs()
        with self.assertRaisesRegex(ValueError, "without its real couplings"):
            Lattice("square", 1, 2, [1]).ground().real
        self.assertEqual(Lattice.from_real("square", 1, 3, [0.0, 0]).ground().real.energy, 0.0)

    @unittest.skipIf(numpy is None, "numpy is not there")
    def test_arrays_are_rounded_as_lists(self):
        source = numpy.random.default_rng(63)
        for size in (1.0, 1e-20, 1e20, 1e-300, 1e300):
            values = source.normal(0, size, 12)
            by_array, by_list = (Lattice.from_real("square", 3, 3, x) for x in (values, values.tolist()))
            self.assertEqual(by_array.couplings.tolist(), by_list.couplings.tolist())
            self.assertEqual(by_array.scale.scale, by_list.scale.scale)
            self.assertLessEqual(by_list.scale.rounding, by_array.scale.rounding)
            self.assertLessEqual(float(by_array.scale.rounding), float(by_list.scale.rounding) * (1 + 1e-14))
        with self.assertRaises(TypeError):
            Lattice.from_real("square", 3, 3, values.reshape(2, 6))
        pair = values[:6].reshape(3, 2), values[6:].reshape(2, 3)
        self.assertEqual(Lattice.from_real("square", 3, 3, pair), by_array)

    def test_graphs(self):
        graph = Graph.from_real(3, [(0, 1, 0.5), (1, 2, 0.25), (2, 0, -0.125)], seam=[0])
        self.assertEqual(graph.ground().real.energy, -0.625)
        self.assertEqual(graph.wall().real.difference, -0.25)
        self.assertEqual(graph.negated().ground().real.energy, -0.875)
        self.assertEqual(graph.with_real([1.5, 2.5, 3.5]).ground().real.energy, -7.5)
        self.assertIsNone(graph.with_couplings([1, 2, 3]).scale)
        if numpy is not None:
            bonds = numpy.array([(0, 1, 0.5), (1, 2, 0.25), (2, 0, -0.125)])
            self.assertEqual(Graph.from_real(3, bonds, seam=[0]), graph)


if __name__ == "__main__":
    unittest.main()
