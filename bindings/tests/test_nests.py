"""Nests as proofs: judged by the library and by the definition itself in plain arithmetic, forged ones
too; and instances that are larger than the program takes."""

import os
import random
import unittest

import ising2d
from ising2d import Refusal
from test_calls import bond_count, drawn, pairs

try:
    import numpy
    import nest_judge
except ImportError:
    numpy = None

CASES = int(os.environ.get("CASES", "2000")) // 4
NONE = ising2d.Nest.NONE

PAIRS = ising2d.Graph(5, [(0, 1, 2), (2, 3, -5)], [[0], [1], [2], [3], []])


def faces_of(given):
    """For each dart its face, in the order of the least darts, and the number of all faces."""
    behind, face_of, count = {}, {}, 0
    for own in given.darts():
        for i, dart in enumerate(own):
            behind[dart] = own[(i + 1) % len(own)]
        count += not own
    found = 0
    for first in range(2 * len(given.couplings)):
        dart = first
        if dart in face_of:
            continue
        while dart not in face_of:
            face_of[dart] = found
            dart = behind[dart ^ 1]
        found += 1
    return face_of, found + count


def broken_weights(given, spins):
    """The size of the coupling of each broken bond; one of no coupling is broken between unlike spins."""
    bonds = enumerate(zip(pairs(given), given.couplings.tolist()))
    return {k: abs(j) for k, ((u, v), j) in bonds if (j < 0) == (spins[u] == spins[v])}


class Heights:
    """A nest by its definition: the height of each region over each face."""

    def __init__(self, nest):
        self.parents, self.radii, self.regions, self.taken = (own.tolist() for own in nest)

    def is_nest(self, faces):
        count = len(self.radii)
        later = all(p == NONE or r < p < count for r, p in enumerate(self.parents))
        places = zip(self.regions, self.taken)
        inside = all(r == NONE and not at or r < count and at <= self.radii[r] for r, at in places)
        return len(self.regions) == faces and later and inside

    def over(self, face):
        """The regions over a face with their heights."""
        region, taken = self.regions[face], self.taken[face]
        found = {}
        while region != NONE:
            found[region] = self.radii[region] - taken
            region, taken = self.parents[region], 0
        return found

    def climb(self, one, other):
        """By how much all heights change between two faces."""
        first, second = self.over(one), self.over(other)
        return sum(abs(first.get(r, 0) - second.get(r, 0)) for r in {*first, *second})


def judged(given, energy, spins, nest):
    """Whether it is a proof, by the definition."""
    face_of, faces = faces_of(given)
    heights, couplings = Heights(nest), given.couplings.tolist()
    odd = [0] * faces
    broken = broken_weights(given, spins)
    for k, j in enumerate(couplings):
        for dart in (2 * k, 2 * k + 1):
            odd[face_of[dart]] ^= j < 0
    frustrated = [face for face in range(faces) if odd[face]]
    ends = [face_of[2 * k + side] for k in broken for side in (0, 1)]
    is_join = all(ends.count(face) % 2 == odd[face] for face in range(faces))
    if given.energy_of(spins) != energy or not is_join or not heights.is_nest(faces):
        return False
    inside = [r for face in frustrated for r in heights.over(face)]
    return (
        all(heights.taken[face] == 0 for face in frustrated)
        and all(inside.count(r) % 2 for r, radius in enumerate(heights.radii) if radius)
        and all(heights.climb(face_of[2 * k], face_of[2 * k + 1]) <= 4 * abs(j) for k, j in enumerate(couplings))
        and sum(heights.radii) == 4 * sum(broken.values())
    )


def forged(source, found):
    """A proof, perhaps changed in one place."""
    spins, rows = found.spins.tolist(), [own.tolist() for own in found.nest]
    change, row = source.randrange(6), source.choice(rows)
    if change == 0:
        return found.energy + source.choice((-2, 2)), spins, rows
    if change == 1:
        spins[source.randrange(len(spins))] *= -1
    elif change < 5 and row:
        place = source.randrange(len(row))
        row[place] = min(NONE, max(0, row[place] + source.choice((-4, -1, 1, 4)))) if change < 4 else NONE
    elif row:
        own = rows[:2] if row in rows[:2] else rows[2:]
        for other in own:
            other.pop()
    return found.energy, spins, rows


def by_arrays(given, energy, spins, nest):
    """The failed checks of a proof, by the judge of arrays."""
    table = nest_judge.Table(given.kind, given.rows, given.cols)
    return nest_judge.failures(table, numpy.array(given.couplings), energy, numpy.array(spins), nest)


class Proofs(unittest.TestCase):
    def test_random_instances(self):
        source = random.Random(1)
        for case in range(CASES):
            given = ising2d.Lattice(*drawn(source))
            with self.subTest(case=case, given=given):
                found = given.ground(nest=True)
                self.assertEqual(found.energy, given.ground().energy)
                self.assertEqual(len(found.loops), 0)
                self.assertTrue(found.check())
                self.assertTrue(judged(given, found.energy, found.spins.tolist(), found.nest))
                if numpy and len(given.couplings):
                    self.assertEqual(by_arrays(given, found.energy, found.spins, found.nest), [])

    def test_forged_proofs(self):
        source = random.Random(2)
        for case in range(CASES):
            given = ising2d.Lattice(*drawn(source))
            energy, spins, nest = forged(source, given.ground(nest=True))
            with self.subTest(case=case, given=given, energy=energy, spins=spins, nest=nest):
                verdict = given.check(energy, spins, nest=nest)
                stated = ising2d._nests.nest_of(nest)
                self.assertEqual(bool(verdict), judged(given, energy, spins, stated))
                if numpy and len(given.couplings):
                    self.assertEqual(not by_arrays(given, energy, spins, stated), bool(verdict))

    def test_several_components(self):
        found = PAIRS.ground(nest=True)
        self.assertEqual(found.energy, -7)
        self.assertEqual(len(found.nest.regions), 3)
        self.assertTrue(judged(PAIRS, found.energy, found.spins.tolist(), found.nest))
        self.assertTrue(found.check())

    def test_two_squares(self):
        """Nothing joins them: regions grow over the faces of both, some 240, and one nest proves the state."""
        source = random.Random(3)
        count = bond_count("square", 12, 12)
        squares = [ising2d.Lattice("square", 12, 12, [source.choice((-1, 1)) for _ in range(count)]) for _ in range(2)]
        bonds, rotation = [], []
        for part, one in enumerate(squares):
            joined = zip(pairs(one), one.couplings.tolist())
            bonds += [(u + 144 * part, v + 144 * part, j) for (u, v), j in joined]
            rotation += [[int(dart) + 2 * count * part for dart in own] for own in one.darts()]
        both = ising2d.Graph(288, bonds, rotation)
        found = both.ground(nest=True)
        self.assertEqual(found.energy, sum(one.ground().energy for one in squares))
        self.assertTrue(judged(both, found.energy, found.spins.tolist(), found.nest))
        self.assertTrue(found.check())

    def test_what_is_asked_for(self):
        square = ising2d.Lattice("square", 2, 2, [3, 4, 2, -5])
        both = square.ground(loops=True, nest=True)
        self.assertTrue(len(both.loops) and square.check(both.energy, both.spins, both.loops))
        self.assertTrue(both.check())
        self.assertIsNone(square.ground().nest)
        bare = square.ground(loops=False)
        self.assertEqual((bare.energy, len(bare.loops), bare.nest), (-10, 0, None))
        self.assertEqual(square.check(-9, [1, 1, -1, -1], nest=both.nest).sentence[:9], "the spins")

    def test_refusals(self):
        square = ("square", 2, 2, [3, 4, 2, -5])
        nest = [list(own) for own in ising2d.ground(*square, nest=True).nest]

        def refused(kept, spins, nest):
            with self.assertRaises(Refusal) as caught:
                ising2d.check(*square, -10, spins, nest=nest)
            self.assertEqual((caught.exception.number, caught.exception.kept), (19, kept))

        spins = [1, 1, -1, -1]
        refused((10, 2), [1, 1, 0, -1], nest)
        refused((12, 0), spins, [nest[0], nest[1] + [0], nest[2], nest[3]])
        refused((13, 0), spins, [nest[0], nest[1], nest[2], nest[3] + [0]])
        with self.assertRaises(Refusal) as caught:
            ising2d.check("square", 2, 2, [2**45, 1, 1, 1], 0, spins, nest=nest)
        self.assertEqual(caught.exception.number, 13)
        with self.assertRaises(TypeError):
            ising2d.check(*square, -10, spins, nest=nest[:3])


class LargeInstances(unittest.TestCase):
    def judge(self, given, found):
        """The nest is judged by the library, and by arrays if numpy is there."""
        self.assertIsNotNone(found.nest)
        self.assertTrue(found.check())
        if numpy:
            self.assertEqual(by_arrays(given, found.energy, found.spins, found.nest), [])

    def test_ten_thousand_spins(self):
        source = random.Random(7)
        for kind, sizes in (("square", (-1, 1)), ("cylinder", range(-1000, 1001))):
            couplings = [source.choice(sizes) for _ in range(bond_count(kind, 100, 100))]
            given = ising2d.Lattice(kind, 100, 100, couplings)
            found = given.ground()
            self.assertEqual(given.energy_of(found.spins), found.energy)
            self.judge(given, found)
            self.assertFalse(given.check(found.energy - 2, found.spins, nest=found.nest))
        self.assertEqual(given.wall().periodic, found.energy)
        with self.assertRaises(Refusal) as caught:
            ising2d.draw("pm", 7, "square", 130, 130).costs()
        self.assertEqual((caught.exception.number, caught.exception.kept), (7, (16900,)))

    def test_a_nest_over_many_bonds(self):
        """There is a nest, and not loops, if the dual has more than 30,000 edges."""
        source = random.Random(9)
        given = ising2d.Lattice("square", 150, 150, [source.choice((-1, 1)) for _ in range(bond_count("square", 150, 150))])
        self.judge(given, given.ground())

    def test_trees_in_slices(self):
        """Drawn couplings and more than 16384 frustrated faces: trees grow in batches, and the nest proves it."""
        source = random.Random(10)
        for kind, side in (("square", 200), ("triangular", 150)):
            count = bond_count(kind, side, side)
            given = ising2d.Lattice(kind, side, side, [source.randrange(-(2**20), 2**20) for _ in range(count)])
            self.judge(given, given.ground())

    def test_loops_of_three_thousand_spins(self):
        source = random.Random(8)
        given = ising2d.Lattice("triangular", 50, 60, [source.choice((-1, 1)) for _ in range(bond_count("triangular", 50, 60))])
        found = given.ground(loops=True)
        self.assertTrue(given.check(found.energy, found.spins, found.loops))
        self.assertEqual(found.energy, given.ground().energy)


if __name__ == "__main__":
    unittest.main()
