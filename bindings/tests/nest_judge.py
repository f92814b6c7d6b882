"""A judge of nests in plain arithmetic of numpy, for ground states of lattices and for T-joins of weighted graphs,
of any size. It shares nothing with the library or its module but the numbering of spins, bonds, faces and edges."""

import numpy

NONE = 2**32 - 1


class Table:
    """The bonds of a lattice and its faces: `ends` of shape (2, bonds), `sides` the same with faces."""

    def __init__(self, kind, rows, cols):
        spin = numpy.arange(rows * cols).reshape(rows, cols)
        east = (spin, numpy.roll(spin, -1, 1)) if kind == "cylinder" else (spin[:, :-1], spin[:, 1:])
        south = spin[:-1], spin[1:]
        if kind == "hexagonal":
            even = numpy.indices(south[0].shape).sum(0) % 2 == 0
            south = south[0][even], south[1][even]
        lean = (spin[:-1, :-1], spin[1:, 1:]) if kind == "triangular" else (spin[:0], spin[:0])
        parts = [[side.ravel() for side in part] for part in (east, south, lean)]
        self.ends = numpy.array([numpy.concatenate([part[i] for part in parts]) for i in (0, 1)])
        self.sides, self.faces = self._faces([len(part[0]) for part in parts], rows * cols)

    def _faces(self, counts, spins):
        # Places of darts round a spin: east, north, north-west, west, south, south-east.
        bonds = numpy.arange(self.ends.shape[1])
        forth = numpy.repeat([0, 4, 5], counts)
        around = numpy.full((spins, 6), -1)
        around[self.ends[0], forth] = 2 * bonds
        around[self.ends[1], (forth + 3) % 6] = 2 * bonds + 1
        present = [row for row in numpy.argsort(around < 0, 1, kind="stable").T]
        listed = numpy.array([around[numpy.arange(spins), place] for place in present]).T
        degree = (around >= 0).sum(1)
        behind = numpy.zeros(2 * len(bonds), dtype=numpy.int64)
        for place in range(6):
            own = place < degree
            following = numpy.where(place + 1 < degree, place + 1, 0)
            behind[listed[own, place]] = listed[own, following[own]]
        labels = least_of_orbits(behind[numpy.arange(2 * len(bonds)) ^ 1])
        least = numpy.unique(labels)
        label = numpy.searchsorted(least, labels)
        return numpy.array([label[0::2], label[1::2]]), len(least) + int((degree == 0).sum())


def least_of_orbits(table):
    """For each place the least place of its orbit."""
    least, jump = numpy.arange(len(table)), table
    while True:
        lower = numpy.minimum(least, least[jump])
        if numpy.array_equal(lower, least) and numpy.array_equal(least, least[table]):
            return least
        least, jump = lower, jump[jump]


def energy_and_broken(table, couplings, spins):
    """The energy, and for each bond whether it is broken."""
    like = spins[table.ends[0]] == spins[table.ends[1]]
    return -int(numpy.where(like, couplings, -couplings).sum()), (couplings < 0) == like


def failures(table, couplings, energy, spins, nest):
    """The names of the failed checks of a ground state and its nest; none if it is a proof."""
    own, broken = energy_and_broken(table, couplings, spins)
    odd = parity_at(table.sides, couplings < 0, table.faces)
    tests = {
        "values": len(spins) == table.ends.max() + 1 and bool((abs(spins) == 1).all()),
        "energy": own == energy,
    }
    return failed(tests) or nest_failures(table.sides, abs(couplings), odd, broken, nest)


def join_failures(n, edges, terminals, weight, chosen, nest):
    """The names of the failed checks of a T-join of a graph and its nest; none if it is a proof. The graph has n
    nodes and `edges` as an array of shape (edges, 3), two nodes and a weight; the T-join is `chosen`, by number."""
    edges = numpy.asarray(edges, dtype=numpy.int64).reshape(-1, 3)
    terminals, chosen = (numpy.asarray(part, dtype=numpy.int64) for part in (terminals, chosen))
    tests = {
        "terminals": is_set(terminals, n),
        "edges": is_set(chosen, len(edges)) and bool((chosen[1:] > chosen[:-1]).all()),
    }
    if not all(tests.values()):
        return failed(tests)
    tests = {"weight": int(edges[chosen, 2].sum()) == weight}
    own = marked(chosen, len(edges))
    return failed(tests) or nest_failures(edges[:, :2].T, edges[:, 2], marked(terminals, n), own, nest)


def nest_failures(sides, weights, odd, chosen, nest):
    """The names of the failed checks of a T-join and its nest: `sides` of shape (2, edges) has the nodes of each
    edge, `odd` and `chosen` mark the terminals and the edges of the T-join."""
    parents, radii, regions, taken = (
        numpy.asarray(part, dtype=kind) for part, kind in zip(nest, ("int64", "uint64", "int64", "uint64"))
    )
    tests = {
        "join": bool((parity_at(sides, chosen, len(odd)) == odd).all()),
        "shape": is_nest(parents, radii, regions, taken, len(odd)),
        "sum": sum(radii.tolist()) == 4 * int(weights[chosen].sum()),
    }
    if not all(tests.values()):
        return failed(tests)
    # No radius is above the sum, so all are small.
    radii, taken = radii.astype(numpy.int64), taken.astype(numpy.int64)
    return failed(
        {
            "hearts": not taken[odd].any(),
            "parity": bool(odd_regions(parents, regions, odd)[radii > 0].all()),
            "slopes": bool((climbs(sides, parents, radii, regions, taken) <= 4 * weights).all()),
        }
    )


def failed(tests):
    """The names of the tests that fail."""
    return [name for name, passes in tests.items() if not passes]


def is_set(numbers, count):
    """Whether the numbers are below the count, each there once."""
    return len(numpy.unique(numbers)) == len(numbers) and bool(((0 <= numbers) & (numbers < count)).all())


def marked(numbers, count):
    """For each number below the count whether it is one of these."""
    found = numpy.zeros(count, dtype=bool)
    found[numbers] = True
    return found


def parity_at(sides, chosen, count):
    """For each node whether an odd number of ends of chosen edges lie at it."""
    return numpy.bincount(sides[:, chosen].ravel(), minlength=count) % 2 == 1


def is_nest(parents, radii, regions, taken, nodes):
    count = len(radii)
    inside = regions < count
    return (
        len(regions) == len(taken) == nodes
        and len(parents) == count
        and bool(((parents == NONE) | ((parents > numpy.arange(count)) & (parents < count))).all())
        and bool((inside | ((regions == NONE) & (taken == 0))).all())
        and bool((taken[inside] <= radii[regions[inside]]).all())
    )


def odd_regions(parents, regions, odd):
    """For each region whether it holds an odd number of the terminals."""
    own = numpy.bincount(regions[odd & (regions < NONE)], minlength=len(parents)) % 2
    marks, above = own.tolist(), parents.tolist()
    for region, parent in enumerate(above):
        if marks[region] and parent != NONE:
            marks[parent] ^= 1
    return numpy.array(marks, dtype=bool)


def radii_over(parents, radii):
    """For each region all radii up its chain of parents; a last entry for none."""
    over = numpy.append(radii, 0)
    jump = numpy.append(numpy.where(parents == NONE, len(radii), parents), len(radii))
    while (jump < len(radii)).any():
        over, jump = over + over[jump], jump[jump]
    return over


def climbs(sides, parents, radii, regions, taken):
    """For each edge by how much all heights together change over it."""
    none = len(radii)
    above = numpy.append(numpy.where(parents == NONE, none, parents), none)
    over, own = radii_over(parents, radii), numpy.where(regions == NONE, none, regions)
    heights = over[own] - taken
    one, other = sides
    found = heights[one] + heights[other]
    # Up both chains, from the earlier region on, to the first that both have.
    p, q = own[one], own[other]
    open_ = numpy.flatnonzero(p != q)
    while len(open_):
        a, b = p[open_], q[open_]
        p[open_], q[open_] = numpy.where(a < b, above[a], a), numpy.where(b < a, above[b], b)
        open_ = open_[p[open_] != q[open_]]
    lacks = [numpy.where(own[side] == p, taken[side], 0) for side in (one, other)]
    return found - 2 * (over[p] - numpy.maximum(*lacks))
