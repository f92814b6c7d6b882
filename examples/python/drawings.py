"""Graphs by their drawings: a kagome lattice, and a random triangulation if numpy and scipy are installed.

    python3 drawings.py [POINTS]
"""

import itertools
import random
import sys

import ising2d


def kagome(size):
    """The points and bonds of a kagome lattice: triangles that meet at their corners."""
    points, spin = [], {}
    for r, c in itertools.product(range(size), repeat=2):
        # Skewed, so that the coordinates are whole; the order of the bonds at a point is the same.
        for corner, (x, y) in enumerate(((0, 0), (1, 0), (0, 1))):
            spin[r, c, corner] = len(points)
            points.append((2 * c + x, 2 * r + y))
    bonds = []
    for r, c in itertools.product(range(size), repeat=2):
        bonds += itertools.combinations((spin[r, c, corner] for corner in range(3)), 2)
        for corner, other in ((1, (r, c + 1, 0)), (2, (r + 1, c, 0)), (1, (r - 1, c + 1, 2))):
            if other in spin:
                bonds.append((spin[r, c, corner], spin[other]))
    return points, bonds


def triangulation(count):
    """A Delaunay triangulation of random points in a square."""
    import numpy
    import scipy.spatial

    points = numpy.random.default_rng(1).random((count, 2))
    triangles = scipy.spatial.Delaunay(points).simplices
    sides = numpy.sort(numpy.concatenate([triangles[:, pair] for pair in ([0, 1], [1, 2], [0, 2])]), axis=1)
    return points, numpy.unique(sides, axis=0)


def main():
    points, bonds = kagome(12)
    found = ising2d.Graph.from_points(points, bonds, [-1] * len(bonds)).ground()
    print(f"kagome antiferromagnet: {len(points)} spins, energy {found.energy}, proved: {bool(found.check())}")
    try:
        points, bonds = triangulation(int(sys.argv[1]) if len(sys.argv) > 1 else 2000)
    except ImportError:
        print("no triangulation: numpy or scipy is not installed")
        return
    source = random.Random(1)
    couplings = [source.gauss(0, 1) for _ in range(len(bonds))]
    found = ising2d.Graph.from_points(points, bonds, couplings, real=True).ground()
    energy, error, _ = found.real
    print(f"Gaussian triangulation: {len(points)} spins, energy {energy:.6f} up to {error:.1g}, proved: {bool(found.check())}")


if __name__ == "__main__":
    main()
