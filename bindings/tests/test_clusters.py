"""Rigid clusters beside all assignments on small lattices, and beside the costs of all bonds on larger ones."""

import itertools
import random
import unittest

from ising2d import Lattice
from test_calls import CASES, KINDS, bond_count

LAWS = (
    lambda source: source.choice((-1, 1)),
    lambda source: source.randint(-3, 3),
    lambda source: source.randint(-10, 10),
    lambda source: source.randint(-(2**20), 2**20),
    lambda source: source.choice((-1, 1)) * 2 ** source.choice((0, 0, 0, 33)),
)


def bonds_of(lattice):
    """The ends and the coupling of each bond."""
    return [(one, other, j) for (one, other), j in zip(lattice.ends(), lattice.couplings.tolist())]


def drawn(source, law, largest):
    """A lattice of a random kind with random sides."""
    kind = source.choice(KINDS)
    rows, cols = source.randint(1, largest), source.randint(3, largest)
    return Lattice(kind, rows, cols, [law(source) for _ in range(bond_count(kind, rows, cols))])


def names(count, joined):
    """For each spin the least one that it reaches over the bonds."""
    leads = list(range(count))

    def root(spin):
        while leads[spin] != spin:
            spin = leads[spin]
        return spin

    for one, other in joined:
        low, high = sorted((root(one), root(other)))
        leads[high] = low
    return [root(spin) for spin in range(count)]


def by_all(lattice):
    """The clusters by all assignments: a bond is rigid if all ground states have one product there."""
    bonds = bonds_of(lattice)
    count = lattice.rows * lattice.cols
    least, products = None, set()
    for rest in itertools.product((1, -1), repeat=count - 1):
        spins = (1,) + rest
        energy = -sum(j * spins[one] * spins[other] for one, other, j in bonds)
        if least is None or energy < least:
            least, products = energy, set()
        if energy == least:
            products.add(tuple(spins[one] * spins[other] for one, other, _ in bonds))
    rigid = [len({found[k] for found in products}) == 1 for k in range(len(bonds))]
    return names(count, [bond[:2] for bond, is_rigid in zip(bonds, rigid) if is_rigid])


class Clusters(unittest.TestCase):
    def test_small_ones_are_those_of_all_assignments(self):
        source = random.Random(49)
        for case in range(CASES // 4):
            lattice = drawn(source, LAWS[case % len(LAWS)], 3)
            self.assertEqual(list(lattice.clusters()), by_all(lattice), lattice.as_json())

    def test_larger_ones_are_those_of_the_costs(self):
        source = random.Random(50)
        for case in range(min(CASES, 300)):
            lattice = drawn(source, LAWS[case % len(LAWS)], 16)
            joined = [bond[:2] for bond, cost in zip(bonds_of(lattice), lattice.costs()) if cost > 0]
            self.assertEqual(list(lattice.clusters()), names(len(lattice.clusters()), joined), lattice.as_json())


if __name__ == "__main__":
    unittest.main()
