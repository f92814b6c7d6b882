"""Other exact ways to a ground state of a square lattice, in Python, and the CPU time that they take."""

import resource
import statistics

import numpy

import ising2d

NAMES = {
    "ising2d": "ising2d, with its proof",
    "networkx": "networkx, matching of faces",
    "scipy": "scipy, integer program",
}

# The greatest lengths that a way is tried at, so that it takes no more than some minutes.
LONGEST = {"ising2d": 44, "networkx": 16, "scipy": 12}
SIZES = (6, 8, 12, 16, 24, 32, 44)
RUNS = 3


def by_ising2d(lattice):
    return lattice.ground().energy


def by_networkx(lattice):
    """A least perfect matching of the frustrated faces. The outer face is one of them, where they are
    odd in number. The cost of a pair is the least weight of bonds that are crossed on the way."""
    import networkx
    from ising2d._drawings import Drawing

    drawing = Drawing(lattice)
    dual = networkx.Graph()
    weights = [abs(j) for j in lattice.couplings.tolist()]
    place = {id(face): number for number, face in enumerate(drawing.faces)}
    for bond, sides in enumerate(drawing.sides()):
        ends = [place[id(face)] for face in sides] + [-1] * (2 - len(sides))
        known = dual.get_edge_data(*ends, default={"weight": weights[bond] + 1})["weight"]
        dual.add_edge(*ends, weight=min(known, weights[bond]))
    odd = [place[id(face)] for face in drawing.faces if drawing.is_frustrated(face)]
    odd += [-1] * (len(odd) % 2)
    pairs = networkx.Graph()
    for face in odd:
        lengths = networkx.single_source_dijkstra_path_length(dual, face)
        pairs.add_weighted_edges_from((face, other, lengths[other]) for other in odd if other != face)
    matching = networkx.min_weight_matching(pairs)
    return 2 * sum(pairs.edges[pair]["weight"] for pair in matching) - sum(weights)


def by_scipy(lattice):
    """An integer program: a variable for each spin and one for each bond, which is 1 where the bond is
    broken, with the four inequalities that say so."""
    from scipy.optimize import Bounds, LinearConstraint, milp
    from scipy.sparse import coo_matrix

    ends, couplings = lattice.ends(), lattice.couplings.tolist()
    spins, bonds = lattice.n, len(ends)
    entries, bounds = [], []
    for k, ((u, v), j) in enumerate(zip(ends, couplings)):
        # Broken: the spins differ where the coupling is above 0, and are alike where it is below.
        forms = ((1, -1, 0), (-1, 1, 0)) if j > 0 else ((1, 1, 1), (-1, -1, -1))
        for at_u, at_v, bound in forms:
            row = len(bounds)
            entries += [(row, u, at_u), (row, v, at_v), (row, spins + k, -1)]
            bounds.append(bound)
    rows, columns, values = zip(*entries)
    matrix = coo_matrix((values, (rows, columns)), shape=(len(bounds), spins + bonds))
    costs = numpy.array([0] * spins + [2 * abs(j) for j in couplings], float)
    fixed = numpy.ones(spins + bonds)
    fixed[0] = 0
    found = milp(
        costs,
        constraints=LinearConstraint(matrix, ub=numpy.array(bounds, float)),
        bounds=Bounds(0, fixed),
        integrality=numpy.ones(spins + bonds),
        options={"mip_rel_gap": 0},
    )
    return round(found.fun) - sum(map(abs, couplings))


WAYS = {"ising2d": by_ising2d, "networkx": by_networkx, "scipy": by_scipy}


def measured():
    """The CPU seconds of each way at each length: the middle of some lattices, whose energies must agree."""
    rows = []
    for size in SIZES:
        lattices = [ising2d.draw("uniform", seed, "square", size, size) for seed in range(RUNS)]
        row, energies = {"size": size}, {}
        for name, way in WAYS.items():
            if size <= LONGEST[name]:
                row[name], energies[name] = timed(way, lattices)
        assert len(set(map(tuple, energies.values()))) == 1, energies
        rows.append(row)
        print(row, flush=True)
    return rows


def processor_seconds():
    """What this process has taken until now, with all threads, and its children that have ended."""
    taken = (resource.getrusage(who) for who in (resource.RUSAGE_SELF, resource.RUSAGE_CHILDREN))
    return sum(used.ru_utime + used.ru_stime for used in taken)


def timed(way, lattices):
    seconds, energies = [], []
    for lattice in lattices:
        begun = processor_seconds()
        energies.append(way(lattice))
        seconds.append(processor_seconds() - begun)
    return statistics.median(seconds), energies
