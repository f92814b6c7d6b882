"""The logical error rate of the toric code under bit flips, decoded by minimum T-joins.

On a torus of d by d squares a qubit lies on each edge, and is flipped with probability p, independently of the
others. The code tells at which nodes an odd number of flipped edges end. A minimum T-join of these nodes is a
most likely set of flips; the decoder fails if it and the true flips together wind round the torus. Below a
threshold larger codes fail more rarely, above it more often.

The threshold of this decoder is also where the ground state of the +-J spin glass on the square lattice loses
its magnetization at zero temperature, since both compare the same domain walls: p near 0.103 (Wang, Harrington
and Preskill, Annals of Physics 303, 31, 2003: 0.1031 +- 0.0001). The curves cross there.

    python3 toric_code.py [SHOTS]
"""

import sys
import time

import ising2d

try:
    import numpy
except ImportError:
    sys.exit("this example needs numpy")

SIZES = 4, 8, 12, 16
RATES = 0.08, 0.09, 0.095, 0.1, 0.103, 0.106, 0.11, 0.12


def toric(d):
    """The graph of the code, and for each of two directions the edges that a loop round the torus crosses
    an odd number of times."""
    node = numpy.arange(d * d).reshape(d, d)
    east = numpy.stack([node, numpy.roll(node, -1, 1)], -1).reshape(-1, 2)
    south = numpy.stack([node, numpy.roll(node, -1, 0)], -1).reshape(-1, 2)
    ends = numpy.concatenate([east, south])
    graph = ising2d.Network(d * d, numpy.column_stack([ends, numpy.ones(len(ends), dtype=int)]))
    return graph, ends, (node[:, -1], d * d + node[-1])


def failure_rate(d, rate, shots, draws):
    """How often the decoder fails, and the standard error of that."""
    graph, ends, windings = toric(d)
    flips = draws.random((shots, len(ends))) < rate
    syndromes = numpy.zeros((shots, d * d), dtype=int)
    for side in range(2):
        numpy.add.at(syndromes.T, ends[:, side], flips.T)
    found = graph.tjoin_many(syndromes % 2 == 1)
    failed = numpy.zeros(shots, dtype=bool)
    for crossed in windings:
        failed |= (flips[:, crossed].sum(1) % 2 == 1) ^ found.parity(crossed)
    mean = failed.mean()
    return mean, (mean * (1 - mean) / shots) ** 0.5


def main():
    shots = int(sys.argv[1]) if len(sys.argv) > 1 else 2000
    draws = numpy.random.default_rng(103)
    begun = time.process_time()
    print("p      " + "".join(f"d = {d:<14}" for d in SIZES))
    for rate in RATES:
        found = [failure_rate(d, rate, shots, draws) for d in SIZES]
        print(f"{rate:<7}" + "".join(f"{mean:.3f} +- {error:.3f}    " for mean, error in found))
    count = shots * len(SIZES) * len(RATES)
    spent = time.process_time() - begun
    print(f"{count} T-joins, each proved, in {spent:.1f} s of CPU time: {1e6 * spent / count:.0f} us each")


if __name__ == "__main__":
    main()
