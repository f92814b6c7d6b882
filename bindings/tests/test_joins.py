"""Minimum T-joins of any size, many on one graph, decoders, and spin glasses on a torus."""

import itertools
import random
import unittest

import ising2d
from ising2d import Boundary, Network, Torus
from test_calls import CASES

try:
    import numpy
    import nest_judge
except ImportError:
    numpy = None
try:
    import networkx
except ImportError:
    networkx = None
try:
    import scipy.sparse as sparse
except ImportError:
    sparse = None

NONE = 2**32 - 1


def drawn(source, most=7, more=4, largest=9):
    """A random connected graph, with parallel edges and edges from a node to itself."""
    n = source.randint(1, most)
    edges = [(i, source.randrange(i), source.randint(0, largest)) for i in range(1, n)]
    edges += [
        (source.randrange(n), source.randrange(n), source.randint(0, largest))
        for _ in range(source.randint(0, more))
    ]
    source.shuffle(edges)
    return n, edges


def even_list(source, n):
    return source.sample(range(n), 2 * source.randint(0, n // 2))


def odd_ends(edges, chosen):
    """The nodes that meet an odd number of ends of these edges."""
    odd = set()
    for k in chosen:
        for node in edges[k][:2]:
            odd ^= {node}
    return odd


def least_weights(n, edges):
    """For each set of terminals the least weight of a T-join, over all sets of edges."""
    least = {}
    for size in range(len(edges) + 1):
        for chosen in itertools.combinations(range(len(edges)), size):
            odd = frozenset(odd_ends(edges, chosen))
            weight = sum(edges[k][2] for k in chosen)
            least[odd] = min(weight, least.get(odd, weight))
    return least


def nest_failure(n, edges, terminals, weight, nest):
    """The first test of a nest that fails, in plain arithmetic; none where it is a proof."""
    parents, radii, regions, taken = (list(map(int, part)) for part in nest)
    count = len(radii)
    if len(parents) != count or len(regions) != n or len(taken) != n:
        return "lengths"
    if any(parent != NONE and not region < parent < count for region, parent in enumerate(parents)):
        return "parents"
    heights = [[0] * n for _ in range(count)]
    odd = [False] * count
    for node, region in enumerate(regions):
        if region == NONE:
            if taken[node]:
                return "places"
            continue
        if region >= count or taken[node] > radii[region] or (node in terminals and taken[node]):
            return "places"
        height = radii[region] - taken[node]
        while region != NONE:
            heights[region][node] = height
            odd[region] ^= node in terminals
            region = parents[region]
            height = radii[region] if region != NONE else 0
    if any(radius and not is_odd for radius, is_odd in zip(radii, odd)):
        return "parity"
    for a, b, own in edges:
        if sum(abs(height[a] - height[b]) for height in heights) > 4 * own:
            return "slopes"
    return None if sum(radii) == 4 * weight else "sum"


def replaced(found, **changes):
    """A T-join with some parts of another."""
    own = {name: getattr(found, name) for name in ("weight", "edges", "network", "terminals", "nest")}
    return ising2d.Join(**{**own, **changes})


def by_arrays(found):
    """The failed checks of a T-join and its nest, by the judge of arrays."""
    network = found.network
    ends = numpy.array([edge[:2] for edge in network.edges], dtype=numpy.int64).reshape(-1, 2)
    edges = numpy.column_stack([ends, network.weights])
    return nest_judge.join_failures(network.n, edges, found.terminals, found.weight, found.edges, found.nest)


def raised(source, found):
    """A radius is raised."""
    radii = list(map(int, found.nest.radii))
    radii[source.randrange(len(radii))] += source.choice((1, 4, 2**63))
    return replaced(found, nest=ising2d.Nest(found.nest.parents, radii, found.nest.regions, found.nest.at_radii))


def moved_region(source, found):
    """A terminal is moved to another region or out of all, or a region to another parent."""
    parents, regions = (list(map(int, part)) for part in (found.nest.parents, found.nest.regions))
    if source.random() < 0.5:
        region = source.randrange(len(parents))
        parents[region] = source.choice((NONE, *range(min(region + 1, len(parents) - 1), len(parents))))
    else:
        regions[source.choice(found.terminals)] = source.choice((NONE, source.randrange(len(parents))))
    return replaced(found, nest=ising2d.Nest(parents, found.nest.radii, regions, found.nest.at_radii))


def without_an_edge(source, found):
    """An edge of the T-join is dropped."""
    place = source.randrange(len(found.edges))
    edges = found.edges[:place] + found.edges[place + 1 :]
    return replaced(found, edges=edges, weight=sum(int(found.network.weights[k]) for k in edges))


def moved_terminal(source, found):
    """A terminal is moved to another node."""
    terminals = list(found.terminals)
    terminals[source.randrange(len(terminals))] = source.choice(sorted({*range(found.network.n)} - {*terminals}))
    return replaced(found, terminals=tuple(terminals))


CHANGES = raised, moved_region, without_an_edge, moved_terminal


class Numbers(unittest.TestCase):
    def judged(self, n, edges, terminals, found):
        self.assertEqual(odd_ends(edges, found.edges), set(terminals))
        self.assertEqual(list(found.edges), sorted(set(found.edges)))
        self.assertEqual(sum(edges[k][2] for k in found.edges), found.weight)
        self.assertIsNotNone(found.nest)
        self.assertIsNone(nest_failure(n, edges, set(terminals), found.weight, found.nest))
        self.assertEqual(by_arrays(found) if numpy else [], [])
        self.assertEqual(found.check().number, 0)

    def test_random_graphs_beside_all_joins(self):
        source = random.Random(51)
        for _ in range(CASES):
            n, edges = drawn(source)
            terminals = even_list(source, n)
            found = Network(n, edges).tjoin(terminals)
            self.assertEqual(found.weight, least_weights(n, edges)[frozenset(terminals)])
            self.judged(n, edges, terminals, found)

    @unittest.skipIf(networkx is None, "networkx is not there")
    def test_larger_graphs_beside_networkx(self):
        source = random.Random(52)
        for seed in range(min(CASES, 200)):
            graph = networkx.gnm_random_graph(40, 70, seed=seed)
            graph = graph.subgraph(max(networkx.connected_components(graph), key=len)).copy()
            graph = networkx.convert_node_labels_to_integers(graph)
            weights = {edge: source.randint(0, 99) for edge in graph.edges}
            networkx.set_edge_attributes(graph, weights, "weight")
            terminals = even_list(source, len(graph))[:12]
            lengths = dict(networkx.all_pairs_dijkstra_path_length(graph))
            pairs = networkx.Graph()
            pairs.add_weighted_edges_from((u, v, lengths[u][v]) for u, v in itertools.combinations(terminals, 2))
            least = sum(lengths[u][v] for u, v in networkx.min_weight_matching(pairs))
            edges = [(u, v, own) for (u, v), own in weights.items()]
            found = Network(len(graph), edges).tjoin(terminals)
            self.assertEqual(found.weight, least)
            self.judged(len(graph), edges, terminals, found)

    def test_changed_proofs_fail(self):
        source = random.Random(53)
        for _ in range(200):
            n, edges = drawn(source, largest=5)
            found = Network(n, edges).tjoin(even_list(source, n))
            if not found.weight:
                continue
            radii = list(map(int, found.nest.radii))
            place = max(range(len(radii)), key=radii.__getitem__)
            radii[place] += source.choice((-1, 1))
            nest = ising2d.Nest(found.nest.parents, radii, found.nest.regions, found.nest.at_radii)
            self.assertEqual(replaced(found, nest=nest).check().number, 8)
            self.assertEqual(replaced(found, weight=found.weight + 1).check().number, 3)
            self.assertIn(replaced(found, edges=found.edges[1:]).check().number, (2, 3))
            self.assertEqual(replaced(found, edges=(*found.edges, 99)).check().number, 1)

    def test_forged_proofs_are_judged_by_the_definition(self):
        source, verdicts = random.Random(58), {change: [0, 0] for change in CHANGES}
        for case in range(CASES):
            n, edges = drawn(source, largest=source.choice((1, 5)))
            found = Network(n, edges).tjoin(even_list(source, n))
            change = CHANGES[case % len(CHANGES)]
            if not found.edges or change is moved_terminal and len(found.terminals) == n:
                continue
            forged = change(source, found)
            holds = odd_ends(edges, forged.edges) == set(forged.terminals) and (
                nest_failure(n, edges, set(forged.terminals), forged.weight, forged.nest) is None
            )
            verdicts[change][holds] += 1
            with self.subTest(n=n, edges=edges, forged=forged, nest=tuple(forged.nest)):
                self.assertEqual(bool(forged.check()), holds)
                self.assertEqual(not by_arrays(forged) if numpy else holds, holds)
        for change, (wrong, _) in verdicts.items():
            self.assertGreater(wrong, 0, change.__name__)
        self.assertEqual(verdicts[raised][True], 0)

    @unittest.skipIf(numpy is None, "numpy is not there")
    def test_large_grid(self):
        side = 300
        node = numpy.arange(side * side).reshape(side, side)
        ends = numpy.concatenate(
            [
                numpy.stack([node[:, :-1].ravel(), node[:, 1:].ravel()], 1),
                numpy.stack([node[:-1].ravel(), node[1:].ravel()], 1),
            ]
        )
        draws = numpy.random.default_rng(5)
        edges = numpy.column_stack([ends, draws.integers(0, 1000, len(ends))])
        terminals = draws.choice(side * side, side * side // 20 * 2, replace=False)
        network = Network(side * side, edges)
        found = network.tjoin(terminals)
        self.assertIn("network of 90000 nodes", repr(network))
        self.assertTrue(found.check())
        self.assertEqual(by_arrays(found), [])
        self.assertEqual(odd_ends(edges.tolist(), found.edges), set(terminals.tolist()))
        with self.assertRaises(ising2d.TooLarge):
            found.cuts

    @unittest.skipIf(numpy is None, "numpy is not there")
    def test_large_random_graphs_and_their_forged_proofs(self):
        source, draws = random.Random(59), numpy.random.default_rng(59)
        for n, largest in ((2000, 1), (2000, 9), (20000, 2**20)):
            ring = numpy.column_stack([numpy.arange(n), numpy.roll(numpy.arange(n), 1)])
            ends = numpy.concatenate([ring, draws.integers(0, n, (2 * n, 2))])
            network = Network(n, numpy.column_stack([ends, draws.integers(1, largest + 1, len(ends))]))
            found = network.tjoin(draws.choice(n, n // 4 * 2, replace=False))
            self.assertEqual(by_arrays(found), [])
            self.assertTrue(found.check())
            for change in CHANGES:
                forged = change(source, found)
                with self.subTest(n=n, largest=largest, change=change.__name__):
                    self.assertEqual(bool(by_arrays(forged)), not forged.check())
                    if change is not moved_region:
                        self.assertFalse(forged.check())
            # The nest of other terminals, beside a T-join that is minimum.
            other = network.tjoin(moved_terminal(source, found).terminals)
            mixed = replaced(other, nest=found.nest)
            self.assertTrue(by_arrays(mixed))
            self.assertFalse(mixed.check())

    @unittest.skipIf(sparse is None, "scipy is not there")
    def test_of_scipy(self):
        matrix = sparse.csr_matrix([[0, 2, 4], [2, 0, 3], [4, 3, 0]])
        self.assertEqual(Network.from_scipy(matrix).tjoin([0, 2]).weight, 4)

    def test_boundary(self):
        line = Network(4, [(0, 1, 2), (1, 2, 3), (2, 3, 5)], labels="abcd")
        self.assertEqual(line.tjoin(["c"], boundary="a").edges, (0, 1))
        self.assertEqual(line.tjoin(["a", "c"], boundary="a").weight, 5)
        self.assertEqual(line.tjoin(["a", "b", "c"], boundary="a").weight, 3)
        with self.assertRaises(ising2d.BadTerminals):
            line.tjoin(["c"])
        with self.assertRaisesRegex(ValueError, "boundary: there is no node"):
            line.tjoin(["c"], boundary="e")

    def test_probabilities(self):
        code = Network.from_probabilities(3, [(0, 1, 0.01), (1, 2, 0.3), (0, 2, 0.5)])
        found = code.tjoin([0, 2])
        self.assertEqual((found.edges, found.weight, found.real.value), ((2,), 0, 0.0))
        self.assertGreater(code.weights[0], code.weights[1])
        for wrong in (0, 0.51, -1, 1.5):
            with self.assertRaisesRegex(ValueError, "probability"):
                Network.from_probabilities(2, [(0, 1, wrong)])
        with self.assertRaises(ValueError):
            Network.from_probabilities(2, [(0, 1, float("nan"))])


class Many(unittest.TestCase):
    def test_beside_one_by_one(self):
        source = random.Random(54)
        for _ in range(min(CASES, 300)):
            n, edges = drawn(source)
            network = Network(n, edges)
            lists = [even_list(source, n) for _ in range(source.randint(0, 8))]
            found = network.tjoin_many(lists, threads=source.choice((1, 2)))
            self.assertEqual(found.weights.tolist(), [network.tjoin(own).weight for own in lists])
            for own, chosen in zip(lists, found):
                self.assertEqual(odd_ends(edges, chosen), set(own))
            self.assertEqual([sum(edges[k][2] for k in own) for own in found], found.weights.tolist())

    def test_order_does_not_matter(self):
        # The library keeps lists from one T-join to the next: each answer has to be that of the list alone.
        source = random.Random(55)
        graphs = [drawn(source, most=40, more=60, largest=largest) for largest in (1, 9, 1000)]
        spokes = [(0, i, source.randint(1, 9)) for i in range(1, 200)]
        graphs.append((200, spokes + [(i, i - 1, source.randint(1, 9)) for i in range(2, 200)]))
        for n, edges in graphs:
            network = Network(n, edges)
            lists = [even_list(source, n) for _ in range(40)]
            alone = [tuple(map(int, network.tjoin(own).edges)) for own in lists]
            found = network.tjoin_many(lists + lists[::-1], threads=1)
            self.assertEqual(list(found), alone + alone[::-1])
            weights = [sum(edges[k][2] for k in own) for own in alone]
            self.assertEqual(found.weights.tolist(), weights + weights[::-1])

    @unittest.skipIf(numpy is None, "numpy is not there")
    def test_matrices(self):
        source = random.Random(56)
        n, edges = drawn(source, most=12, more=20)
        network = Network(n, edges)
        shots = numpy.array([[source.random() < 0.4 for _ in range(n)] for _ in range(50)])
        found = network.tjoin_many(shots, boundary=0)
        lists = [numpy.flatnonzero(row).tolist() for row in shots]
        self.assertEqual(found, network.tjoin_many(lists, boundary=0))
        matrix = found.matrix()
        self.assertEqual(matrix.shape, (50, len(edges)))
        self.assertEqual([tuple(numpy.flatnonzero(row)) for row in matrix], list(found))
        chosen = source.sample(range(len(edges)), len(edges) // 2)
        self.assertEqual(found.parity(chosen).tolist(), (matrix[:, chosen].sum(1) % 2 == 1).tolist())
        with self.assertRaisesRegex(TypeError, "shape"):
            network.tjoin_many(shots[:, 1:])

    def test_wrong_lists(self):
        network = Network(3, [(0, 1, 1), (1, 2, 1)])
        for lists, error in (
            ([[0]], ising2d.BadTerminals),
            ([[0, 1], [0, 0]], ising2d.BadTerminals),
            ([[0, 7]], ising2d.BadTerminals),
            ([0, 1], TypeError),
            (None, TypeError),
            ("ab", TypeError),
            ([[0.5, 1]], TypeError),
        ):
            with self.assertRaises(error, msg=str(lists)):
                network.tjoin_many(lists)
        with self.assertRaises(ising2d.BadTerminals):
            Network(3, [(0, 1, 1)]).tjoin_many([[0, 1]])
        self.assertEqual(len(network.tjoin_many([])), 0)


class Tori(unittest.TestCase):
    def least(self, torus):
        """The least energy over all assignments, for each of the boundary conditions."""
        found = {}
        for boundary in itertools.starmap(Boundary, itertools.product((False, True), repeat=2)):
            states = itertools.product((1, -1), repeat=torus.n - 1)
            found[boundary] = min(torus.energy_of((1, *state), boundary) for state in states)
        return found

    def test_beside_all_assignments(self):
        source = random.Random(57)
        for rows, cols, cases in ((2, 2, 60), (2, 3, 30), (3, 3, 6), (4, 3, 1)):
            for _ in range(min(CASES, cases)):
                east, south = (
                    [[source.randint(-3, 3) for _ in range(cols)] for _ in range(rows)] for _ in range(2)
                )
                torus = Torus(rows, cols, (east, south))
                found, least = torus.extended_ground(), self.least(torus)
                self.assertEqual(found.energy, min(least.values()))
                self.assertEqual(least[found.boundary], found.energy)
                self.assertTrue(found.check())

    @unittest.skipIf(numpy is None, "numpy is not there")
    def test_arrays(self):
        draws = numpy.random.default_rng(3)
        couplings = tuple(draws.choice([-1, 1], (20, 30)) for _ in range(2))
        found = Torus(20, 30, couplings).extended_ground()
        self.assertTrue(found.check())
        self.assertEqual(found.torus.energy_of(found.spins, found.boundary), found.energy)

    def test_wrong_tori(self):
        good = [[1, 1], [1, 1]]
        for arguments, error in (
            ((1, 2, ([[1, 1]], [[1, 1]])), ValueError),
            ((2, 2, good), TypeError),
            ((2, 2, (good, [[1, 1]])), TypeError),
            ((2, 2, (good, [[1, 1], [1, 0.5]])), TypeError),
            ((2.0, 2, (good, good)), TypeError),
            ((2, 2, None), TypeError),
        ):
            with self.assertRaises(error, msg=str(arguments)):
                Torus(*arguments).extended_ground()


if __name__ == "__main__":
    unittest.main()
