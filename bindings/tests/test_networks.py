"""Graphs from networkx, from models like dimod's, and from matrices of scipy."""

import itertools
import random
import unittest

from ising2d import Graph, Network
from test_calls import CASES

try:
    import networkx
except ImportError:
    networkx = None
try:
    import numpy
    import scipy.sparse as sparse
except ImportError:
    sparse = None


class Model:
    """The part of dimod's binary quadratic model that is used."""

    def __init__(self, linear, quadratic, vartype="SPIN", offset=0.0):
        self.linear, self.quadratic, self.vartype, self.offset = linear, quadratic, vartype, offset

    def energy(self, spins):
        fields = sum(bias * spins[v] for v, bias in self.linear.items())
        return self.offset + fields + sum(j * spins[u] * spins[v] for (u, v), j in self.quadratic.items())


def random_planar(source, multi=False):
    """A random planar graph with couplings, and names of all kinds."""
    grid = networkx.triangular_lattice_graph(source.randint(1, 3), source.randint(1, 5))
    kept = [edge for edge in grid.edges if source.random() < 0.8]
    names = {node: source.choice((node, f"n{node}", hash(node))) for node in grid.nodes}
    graph = networkx.MultiGraph() if multi else networkx.Graph()
    graph.add_nodes_from(names.values())
    for u, v in kept:
        for _ in range(source.choice((1, 1, 2)) if multi else 1):
            graph.add_edge(names[u], names[v], J=source.randint(-3, 3))
    return graph


def least(graph):
    """The least energy over all assignments."""
    nodes = list(graph.nodes)
    energies = []
    for values in itertools.product((1, -1), repeat=len(nodes)):
        spins = dict(zip(nodes, values))
        energies.append(-sum(j * spins[u] * spins[v] for u, v, j in graph.edges(data="J")))
    return min(energies)


@unittest.skipIf(networkx is None, "networkx is not there")
class Networkx(unittest.TestCase):
    def test_random_graphs(self):
        source = random.Random(21)
        for case in range(min(CASES, 400)):
            graph = random_planar(source, multi=case % 2 == 1)
            given = Graph.from_networkx(graph)
            found = given.ground()
            spins = found.by_node()
            self.assertEqual(set(spins), set(graph.nodes))
            self.assertEqual(found.energy, -sum(j * spins[u] * spins[v] for u, v, j in graph.edges(data="J")))
            self.assertTrue(found.check())
            if len(graph) <= 10:
                self.assertEqual(found.energy, least(graph))
            costs = given.by_edge(given.costs())
            self.assertEqual(set(costs), set(graph.edges))
            self.assertEqual(
                set(given.clusters().sizes.values()) and sum(given.clusters().sizes.values()), len(graph)
            )

    def test_another_attribute_and_a_scale(self):
        graph = networkx.cycle_graph(4)
        networkx.set_edge_attributes(graph, 0.5, "weight")
        self.assertEqual(Graph.from_networkx(graph, attr="weight", scale=2).ground().energy, -4)
        with self.assertRaisesRegex(ValueError, "0.5 is not a whole number.*scale"):
            Graph.from_networkx(graph, attr="weight")
        with self.assertRaisesRegex(ValueError, "no attribute 'J'"):
            Graph.from_networkx(graph)

    def test_a_seam_of_edges(self):
        graph = networkx.cycle_graph(["a", "b", "c"])
        networkx.set_edge_attributes(graph, {("a", "b"): 5, ("b", "c"): 7, ("a", "c"): 2}, "J")
        given = Graph.from_networkx(graph, seam=[("c", "a")])
        self.assertEqual(given.wall().difference, 4)
        with self.assertRaisesRegex(ValueError, "no edge"):
            Graph.from_networkx(graph, seam=[("a", "x")])

    def test_what_is_no_planar_graph(self):
        complete = networkx.complete_graph(5)
        networkx.set_edge_attributes(complete, 1, "J")
        with self.assertRaisesRegex(ValueError, "not planar"):
            Graph.from_networkx(complete)
        with self.assertRaisesRegex(ValueError, "directed"):
            Graph.from_networkx(networkx.DiGraph([(0, 1)]))
        with self.assertRaisesRegex(ValueError, "joins a node to itself"):
            Graph.from_networkx(networkx.Graph([(0, 0, {"J": 1})]))
        for wrong in (5, None, [(0, 1)], {}):
            with self.assertRaises(TypeError):
                Graph.from_networkx(wrong)
        for value in ("1", None, [1], 1j, float("inf"), float("nan")):
            with self.assertRaises(TypeError, msg=repr(value)):
                Graph.from_networkx(networkx.Graph([(0, 1, {"J": value})]))

    def test_any_graph_is_checked(self):
        complete = [(u, v, 1) for u, v in itertools.combinations(range(5), 2)]
        self.assertTrue(Graph(5, complete).check(-10, [1] * 5, []))

    def test_bonds_with_names(self):
        found = Graph.from_bonds([("a", "b", 3), ("b", "c", -2), ("c", "a", 4)]).ground()
        self.assertEqual((found.energy, found.by_node()), (-5, {"a": 1, "b": 1, "c": 1}))

    def test_a_graph_is_laid_out(self):
        found = Graph.from_networkx(random_planar(random.Random(3))).ground()
        self.assertTrue(found.svg().startswith("<svg"))


@unittest.skipIf(networkx is None, "networkx is not there")
class Roads(unittest.TestCase):
    def test_a_walk_is_as_long_as_by_a_matching(self):
        source = random.Random(23)
        for case in range(min(CASES, 100)):
            graph = networkx.gnm_random_graph(source.randint(2, 8), 12, seed=case)
            graph = graph.subgraph(max(networkx.connected_components(graph), key=len)).copy()
            for u, v in graph.edges:
                graph.edges[u, v]["weight"] = source.randint(0, 9)
            found = Network.from_networkx(graph).postman()
            self.assertTrue(found.check())
            self.assertEqual(found.weight, graph.size(weight="weight") + self.matched(graph))
            self.assertEqual(set(found.edge_labels()), set(graph.edges))
            self.assertTrue(networkx.is_eulerian(networkx.MultiGraph(found.edge_labels())))

    def matched(self, graph):
        """The weight of the edges that a shortest walk repeats: shortest paths between the
        nodes of odd degree, by pairs."""
        lengths = dict(networkx.all_pairs_dijkstra_path_length(graph))
        odd = [node for node, degree in graph.degree if degree % 2]
        pairs = networkx.Graph()
        pairs.add_weighted_edges_from((u, v, lengths[u][v]) for u, v in itertools.combinations(odd, 2))
        return sum(lengths[u][v] for u, v in networkx.min_weight_matching(pairs))

    def test_a_join_of_two_is_a_shortest_path(self):
        source = random.Random(24)
        for case in range(min(CASES, 100)):
            graph = networkx.gnm_random_graph(9, 14, seed=case)
            networkx.set_edge_attributes(graph, {edge: source.randint(0, 9) for edge in graph.edges}, "weight")
            graph = graph.subgraph(max(networkx.connected_components(graph), key=len)).copy()
            ends = source.sample(sorted(graph), 2)
            found = Network.from_networkx(graph).tjoin(ends)
            self.assertEqual(found.weight, networkx.dijkstra_path_length(graph, *ends))
            self.assertTrue(found.check())

    def test_multigraphs_and_attributes(self):
        graph = networkx.MultiGraph([("a", "b", {"km": 3}), ("a", "b", {"km": 1}), ("b", "b", {"km": 2})])
        found = Network.from_networkx(graph, attr="km").tjoin(["a", "b"])
        self.assertEqual((found.weight, found.edge_labels()), (1, [("a", "b", 1)]))
        self.assertEqual(Network.from_networkx(graph, attr=None).postman().weight, 3)
        with self.assertRaisesRegex(ValueError, "no attribute 'weight'"):
            Network.from_networkx(graph)
        with self.assertRaisesRegex(ValueError, "directed"):
            Network.from_networkx(networkx.DiGraph([(0, 1)]))


@unittest.skipIf(networkx is None, "networkx is not there")
class Models(unittest.TestCase):
    def test_the_sign(self):
        source = random.Random(22)
        for _ in range(min(CASES, 200)):
            graph = random_planar(source)
            quadratic = {(u, v): j / 4 for u, v, j in graph.edges(data="J")}
            model = Model(dict.fromkeys(graph.nodes, 0.0), quadratic, offset=1.5)
            found = Graph.from_bqm(model, scale=4).ground()
            self.assertEqual(found.energy / 4 + model.offset, model.energy(found.by_node()))
            if len(graph) <= 10:
                nodes = list(graph.nodes)
                energies = (
                    model.energy(dict(zip(nodes, s))) for s in itertools.product((1, -1), repeat=len(nodes))
                )
                self.assertEqual(found.energy / 4 + model.offset, min(energies))

    def test_what_is_no_such_model(self):
        with self.assertRaisesRegex(ValueError, "the field at 'a' is 0.5"):
            Graph.from_bqm(Model({"a": 0.5, "b": 0}, {("a", "b"): 1}))
        with self.assertRaisesRegex(ValueError, "change_vartype"):
            Graph.from_bqm(Model({}, {}, vartype="BINARY"))
        with self.assertRaisesRegex(TypeError, "linear and quadratic"):
            Graph.from_bqm({})


@unittest.skipIf(networkx is None or sparse is None, "networkx and scipy are not there")
class Matrices(unittest.TestCase):
    def test_symmetric_and_triangular(self):
        dense = numpy.array([[0, 3, 0], [3, 0, -2], [0, -2, 0]])
        for matrix in (
            sparse.csr_matrix(dense),
            sparse.triu(dense),
            sparse.tril(dense).tocsc(),
            sparse.coo_matrix(dense * 1.0),
        ):
            self.assertEqual(Graph.from_scipy(matrix).ground().energy, -5)

    def test_wrong_matrices(self):
        for entries, part in (
            ([[0, 1], [2, 0]], "not symmetric"),
            ([[0, 1]], "not square"),
            ([[1, 1], [1, 0]], "itself"),
            ([[0, 0.5], [0.5, 0]], "scale"),
        ):
            with self.assertRaisesRegex(ValueError, part):
                Graph.from_scipy(sparse.coo_matrix(entries))
        with self.assertRaisesRegex(TypeError, "sparse"):
            Graph.from_scipy(numpy.zeros((2, 2)))


class WithoutNetworkx(unittest.TestCase):
    @unittest.skipIf(networkx is not None, "networkx is there")
    def test_it_is_named(self):
        with self.assertRaisesRegex(ImportError, "networkx is needed"):
            Graph.from_bonds([(0, 1, 1)])

    def test_it_is_not_imported(self):
        import subprocess, sys

        code = "import sys, ising2d; print([m for m in ('networkx', 'scipy', 'dimod') if m in sys.modules])"
        found = subprocess.run([sys.executable, "-c", code], capture_output=True, text=True)
        self.assertEqual(found.stdout, "[]\n", found.stderr)


if __name__ == "__main__":
    unittest.main()
