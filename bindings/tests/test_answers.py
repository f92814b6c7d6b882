"""Named answers: walls with their states, clusters, cuts, joins, walks, drawn instances; batches; and
what answers and refusals are to Python: equal, hashed, pickled, interrupted."""

import contextlib
import dataclasses
import itertools
import json
import multiprocessing
import os
import pickle
import random
import signal
import subprocess
import sys
import time
import unittest

import ising2d
from ising2d import Graph, Lattice, Loop, Network, Refusal
from test_calls import CASES, SQUARE, drawn, pairs, text_of
from test_graphs import drawn as drawn_graph

RING = ("cylinder", 1, 3, [5, 7, 2])


def least_energy(instance):
    """The least energy over all assignments."""
    n, ends, couplings = instance.n, pairs(instance), instance.couplings.tolist()
    energies = (
        -sum(j * spins[u] * spins[v] for (u, v), j in zip(ends, couplings))
        for spins in itertools.product((1, -1), repeat=n)
    )
    return min(energies)


class Walls(unittest.TestCase):
    def agree(self, instance):
        found, numbers = instance.wall(states=True), instance.wall()
        self.assertEqual(
            (found.periodic, found.antiperiodic, found.difference),
            (numbers.periodic, numbers.antiperiodic, numbers.difference),
        )
        self.assertEqual((found.ground.energy, found.turned.energy), (numbers.periodic, numbers.antiperiodic))
        self.assertTrue(found.ground.check())
        self.assertTrue(found.turned.check())
        spins, ends = found.ground.spins.tolist(), pairs(instance)
        couplings = instance.couplings.tolist()
        price = sum(couplings[k] * spins[ends[k][0]] * spins[ends[k][1]] for k in found.bonds)
        self.assertEqual(2 * price, found.difference)
        self.assertEqual(found.length, len(found.bonds))

    def test_random_cylinders(self):
        source = random.Random(11)
        for _ in range(CASES):
            rows, cols, size = source.randint(1, 5), source.randint(3, 6), source.choice((1, 10, 2**30))
            count = rows * cols + (rows - 1) * cols
            self.agree(Lattice("cylinder", rows, cols, [source.randint(-size, size) for _ in range(count)]))

    def test_random_graphs(self):
        source = random.Random(12)
        for _ in range(CASES):
            graph = drawn_graph(source)
            if graph.seam:
                self.agree(graph)

    def test_the_wall_is_refused_as_ever(self):
        with self.assertRaises(Refusal) as caught:
            ising2d.wall(*SQUARE, states=True)
        self.assertEqual(caught.exception.number, 16)


class Studies(unittest.TestCase):
    def test_random_lattices(self):
        source = random.Random(13)
        for _ in range(min(CASES, 300)):
            instance = Lattice(*drawn(source))
            if instance.n <= 12:
                self.compare(instance)

    def compare(self, instance):
        found, cut, report = instance.ground(), instance.maxcut(), instance.report()
        self.assertEqual(found.energy, least_energy(instance))
        self.assertEqual(found.energy, instance.energy_of(found.spins))
        total = sum(instance.couplings.tolist())
        self.assertEqual(total - 2 * cut.weight, least_energy(instance.negated()))
        self.assertEqual(cut.weight, sum(instance.couplings.tolist()[k] for k in cut.bonds()))
        self.assertTrue(cut.check())
        self.assertEqual((report.energy, report.bonds), (found.energy, len(instance.couplings)))
        self.assertEqual(list(report.costs), list(instance.costs()))
        self.assertEqual(list(report.clusters), list(instance.clusters()))
        self.assertEqual(report.wall, instance.wall() if instance.seam_bonds() else None)
        self.ranges(instance)

    def ranges(self, instance):
        signs = {"above": 1, "at": 0, "below": -1}
        for turn, coupling in zip(instance.ranges(), instance.couplings.tolist()):
            self.assertEqual(signs[turn.side], (coupling > turn.coupling) - (coupling < turn.coupling))

    def test_clusters_have_sizes(self):
        found = ising2d.clusters("square", 1, 5, [5, 0, 5, 5])
        self.assertEqual((list(found), found.sizes), ([0, 0, 2, 2, 2], {2: 3, 0: 2}))
        self.assertEqual(found.members(2), [2, 3, 4])
        self.assertEqual((len(found), found[4]), (5, 2))

    def test_a_lattice_is_read_as_it_is_written(self):
        source = random.Random(16)
        for _ in range(min(CASES, 200)):
            lattice = Lattice(*drawn(source))
            members = lattice.as_json()
            self.assertEqual(ising2d.read(json.dumps(members)), lattice)
            self.assertEqual(ising2d.read(text_of(lattice.kind, lattice.rows, lattice.cols, lattice.couplings.tolist())), lattice)
            # With a seam of its own it is a graph, drawn as the lattice is.
            graph = ising2d.read(json.dumps({**members, "seam": lattice.seam_bonds()}))
            self.assertEqual(graph.ground().energy, lattice.ground().energy)
            if lattice.seam_bonds():
                self.assertEqual(graph.wall(), lattice.wall())

    def test_the_old_name_of_costs_warns(self):
        with self.assertWarns(DeprecationWarning):
            self.assertIs(ising2d.bonds, ising2d.costs)

    def test_drawn(self):
        lattice = ising2d.draw("uniform", 42, "square", 2, 2)
        self.assertEqual(lattice.couplings.tolist(), [787127, -527351, 865072, 193171])
        found = ising2d.sample("pm", 7, 24, 24)
        self.assertEqual(found.energy, ising2d.draw("pm", 7, "square", 24, 24).ground().energy)
        self.assertEqual(found.broken, (found.energy + found.sum) // 2)
        self.assertEqual(ising2d.draw("one", 1, "square", 1, 1).couplings.tolist(), [])

    def test_a_study_of_widths(self):
        found = ising2d.widths("pm", 3, 4, 5, 20)
        for width in found:
            ensemble = ising2d.ensemble("pm", 3, 4, width.cols, 20)
            self.assertEqual((width.sum, width.squares), (ensemble.sum, ensemble.squares))
            self.assertEqual(sum(ensemble.walls.tolist()), ensemble.sum)


class Joins(unittest.TestCase):
    def test_random_graphs(self):
        source = random.Random(14)
        for _ in range(CASES):
            n, edges = self.draw(source)
            terminals = source.sample(range(n), 2 * source.randint(0, n // 2))
            self.join(n, edges, terminals)
            self.walk(n, edges)

    def draw(self, source):
        n = source.randint(1, 7)
        edges = [(i, source.randrange(i), source.randint(0, 9)) for i in range(1, n)]
        edges += [
            (source.randrange(n), source.randrange(n), source.randint(0, 9))
            for _ in range(source.randint(0, 4))
        ]
        return n, edges

    def join(self, n, edges, terminals):
        found = ising2d.tjoin(n, edges, terminals)
        ends = [spin for k in found.edges for spin in edges[k][:2]]
        odd = {node for node in range(n) if ends.count(node) % 2}
        self.assertEqual(odd, set(terminals))
        self.assertEqual(found.weight, sum(edges[k][2] for k in found.edges))
        self.packed(edges, found.cuts, found.weight)
        self.assertTrue(found.check())
        if found.weight:
            self.forged(found)

    def forged(self, found):
        """Changed proofs, each with the number of the failed check."""
        first, behind = found.cuts[0], found.cuts[1:]
        for number, changes in (
            (1, {"edges": (*found.edges, found.edges[0])}),
            (1, {"edges": (*found.edges, 99)}),
            (3, {"weight": found.weight - 1}),
            (4, {"stated_cuts": (ising2d.OddCut(0, first.edges), *behind)}),
            (4, {"stated_cuts": (ising2d.OddCut(first.weight, (99,)), *behind)}),
            (5, {"stated_cuts": (ising2d.OddCut(first.weight, ()), *behind)}),
            (6, {"stated_cuts": (ising2d.OddCut(2**50, first.edges), *behind)}),
            (7, {"stated_cuts": behind}),
        ):
            verdict = dataclasses.replace(found, **changes).check()
            self.assertEqual(verdict.number, number, changes)
            self.assertNotIn("{", verdict.sentence)
        fewer = dataclasses.replace(found, edges=found.edges[1:]).check()
        self.assertIn(fewer.number, (2, 3))

    def packed(self, edges, cuts, weight):
        """The cuts load no edge with more than twice its weight, and weigh twice as much together."""
        loads = [0] * len(edges)
        for cut in cuts:
            for k in cut.edges:
                loads[k] += cut.weight
        self.assertTrue(all(load <= 2 * edge[2] for load, edge in zip(loads, edges)))
        self.assertEqual(sum(cut.weight for cut in cuts), 2 * weight)

    def walk(self, n, edges):
        found, at = ising2d.postman(n, edges), 0
        for step in found.steps:
            self.assertEqual({at, step.node}, set(edges[step.edge][:2]))
            at = step.node
        self.assertEqual(at, 0)
        self.assertEqual({step.edge for step in found.steps}, set(range(len(edges))))
        self.assertTrue(found.check())
        if found.steps:
            self.assertIn(dataclasses.replace(found, steps=found.steps[:-1]).check().number, (2, 3))
            self.assertIn(dataclasses.replace(found, steps=found.steps[1:]).check().number, (1, 2, 3))
            self.assertEqual(dataclasses.replace(found, weight=found.weight + 1).check().number, 3)
        again = found.weight - sum(edge[2] for edge in edges)
        self.packed(edges, found.cuts, again)


class Names(unittest.TestCase):
    ROADS = [("home", "mill", 2), ("mill", "inn", 3), ("home", "inn", 4), ("inn", "ford", 1)]

    def test_a_join_of_names(self):
        roads = Network.from_edges(self.ROADS)
        found = roads.tjoin(["home", "inn"])
        self.assertEqual((found.weight, found.edge_labels()), (4, [("home", "inn", 2)]))
        self.assertEqual(found, ising2d.tjoin(4, roads.edges, [0, 2]))
        self.assertTrue(found.check())

    def test_a_walk_from_each_node(self):
        roads = Network.from_edges(self.ROADS)
        for start in roads.node_labels():
            found = roads.postman(start)
            walk = found.node_labels()
            self.assertEqual((found.weight, walk[0], walk[-1]), (11, start, start))
            self.assertEqual(set(found.edge_labels()), set(roads.edge_labels()))
            self.assertTrue(found.check())
            for (u, v), (a, b, _) in zip(zip(walk, walk[1:]), found.edge_labels()):
                self.assertEqual({u, v}, {a, b})

    def test_names_that_are_wrong(self):
        roads = Network.from_edges(self.ROADS)
        for call in (lambda: roads.tjoin(["home", "sea"]), lambda: roads.postman("sea")):
            with self.assertRaisesRegex(ValueError, "there is no node 'sea'"):
                call()
        with self.assertRaisesRegex(Refusal, "terminal 0 .* twice: 'home'"):
            roads.tjoin(["home", "home"])
        with self.assertRaisesRegex(Refusal, "no edges lead.*: 'c'"):
            Network.from_edges([("a", "b", 1), ("c", "d", 1)]).postman()
        with self.assertRaisesRegex(Refusal, r"edge 0 is \(0, 1, -1\) \(allowed: nodes from 0 to 1"):
            Network.from_edges([("a", "b", -1)]).tjoin([])
        with self.assertRaisesRegex(ValueError, "scale"):
            Network.from_edges([("a", "b", 0.5)])
        with self.assertRaisesRegex(ValueError, "1 labels, and 2 nodes"):
            Network(2, [], ["a"])

    def test_a_network_in_python(self):
        roads = Network.from_edges(self.ROADS)
        self.assertEqual(roads, Network(4, [list(edge) for edge in roads.edges]))
        self.assertEqual(len({roads, Network(4, roads.edges)}), 1)
        self.assertEqual(pickle.loads(pickle.dumps(roads.postman())), roads.postman())
        self.assertEqual(Network(2, [(0, 1, 5)]).edge_labels(), [(0, 1, 0)])


class InPython(unittest.TestCase):
    def test_answers_are_equal_and_hashed(self):
        for call in (ising2d.ground, ising2d.maxcut, ising2d.clusters, ising2d.report):
            with self.subTest(call=call.__name__):
                self.assertEqual(call(*RING), call(*RING))
                self.assertEqual(len({call(*RING), call(*RING)}), 1)
                self.assertNotEqual(call(*RING), call("cylinder", 1, 3, [0, 0, 0]))
                self.assertNotEqual(call(*RING), 3)
        self.assertEqual(ising2d.wall(*RING, states=True), ising2d.wall(*RING, states=True))
        self.assertEqual(len({Lattice(*SQUARE), Lattice(*SQUARE)}), 1)
        self.assertEqual(Graph(2, [(0, 1, 7)]), Graph(2, [[0, 1, 7]], [[0], [1]]))

    def test_answers_and_refusals_are_pickled(self):
        for answer in (
            ising2d.ground(*SQUARE),
            ising2d.wall(*RING, states=True),
            ising2d.clusters(*RING),
            ising2d.report(*RING),
            ising2d.maxcut(*RING),
            Graph(2, [(0, 1, 7)]).ground(),
            ising2d.tjoin(2, [(0, 1, 5)], [0, 1]),
            ising2d.check(*SQUARE, 0, [1] * 4, []),
        ):
            self.assertEqual(pickle.loads(pickle.dumps(answer)), answer)
        for refused in ((6, (1, 4)), (19, (1, 0)), (16, ())):
            refusal = Refusal(*refused)
            again = pickle.loads(pickle.dumps(refusal))
            self.assertEqual((str(again), again.number, again.kept), (str(refusal), *refused))

    def test_a_refusal_from_a_pool(self):
        with multiprocessing.get_context("spawn").Pool(1) as pool, self.assertRaises(Refusal) as caught:
            pool.apply(ising2d.ground, ("square", 2, 2, [1]))
        self.assertEqual(
            str(caught.exception),
            "CouplingCount (6): there are 1 couplings (allowed: one for each bond of the lattice, 4)",
        )

    def test_a_verdict_has_a_sentence(self):
        verdict = ising2d.check(*SQUARE, -9, [1, 1, -1, -1], [])
        self.assertEqual(verdict.sentence, "the spins have the energy -10, not the stated one")
        self.assertFalse(verdict)
        self.assertIn("no assignment has less", ising2d.ground(*SQUARE).check().sentence)

    def test_loops_in_any_form(self):
        for loops in (
            [(2, (0, 1, 2, 3))] * 2,
            [[4, [0, 1, 2, 3]]],
            [Loop(4, (0, 1, 2, 3))],
            iter([(4, range(4))]),
        ):
            self.assertTrue(ising2d.check(*SQUARE, -10, [1, 1, -1, -1], loops))

    def test_labels(self):
        found = ising2d.ground(*SQUARE)
        self.assertEqual(found.by_node(), {(0, 0): 1, (0, 1): 1, (1, 0): -1, (1, 1): -1})
        costs = Lattice(*SQUARE).by_edge(ising2d.costs(*SQUARE))
        self.assertEqual(costs[(0, 0), (0, 1)], ising2d.costs(*SQUARE)[0])

    def test_the_couplings_are_copied(self):
        given = [3, 4, 2, -5]
        lattice = Lattice("square", 2, 2, given)
        given[0] = 9
        self.assertEqual(lattice.couplings.tolist()[0], 3)


class Batches(unittest.TestCase):
    def test_they_are_in_order(self):
        source = random.Random(15)
        many = [drawn(source) for _ in range(CASES)]
        alone = [ising2d.ground(*one, loops=False) for one in many]
        for threads in (1, 4):
            self.assertEqual(ising2d.ground_many(many, loops=False, threads=threads), alone)

    def test_the_first_fault_is_raised(self):
        with self.assertRaises(Refusal):
            ising2d.ground_many([SQUARE, ("square", 2, 2, [1]), SQUARE])
        with self.assertRaises(TypeError):
            ising2d.ground_many([SQUARE, 3])
        with self.assertRaises(ValueError):
            ising2d.ground_many([SQUARE], threads=0)
        self.assertEqual(ising2d.ground_many([]), [])

    def test_items_without_an_end(self):
        answers = ising2d.in_order(lambda one: one * one, itertools.count(), threads=3)
        self.assertEqual(list(itertools.islice(answers, 5)), [0, 1, 4, 9, 16])
        answers.close()


# What runs without a terminal, as behind `nohup`, may have been told to pass over the interrupt.
LONG = """
import ising2d, signal, sys
signal.signal(signal.SIGINT, signal.default_int_handler)
lattice = ising2d.draw("uniform", 1, "square", 45, 45)
print("go", flush=True)
try:
    {call}
except KeyboardInterrupt:
    print("heard", flush=True)
"""


# On a busy machine a process may have to wait for its turn; a call that is not left takes far longer.
TRIES = 3


class Interrupts(unittest.TestCase):
    CALLS = (
        "while True: lattice.costs()",
        'while True: ising2d.run(["ensemble", "uniform", "1", "32", "32", "1000"])',
        "while True: ising2d.ground_many([lattice] * 200)",
    )

    def test_ctrl_c_is_heard_within_a_second(self):
        for call in self.CALLS:
            with self.subTest(call=call):
                self.assertTrue(any(self.interrupted(call) < 1.0 for _ in range(TRIES)))

    def interrupted(self, call):
        """The seconds from the interrupt to the end of the process."""
        child = subprocess.Popen(
            [sys.executable, "-c", LONG.format(call=call)],
            stdout=subprocess.PIPE,
            text=True,
            env=dict(os.environ, PYTHONPATH=os.pathsep.join(sys.path)),
        )
        with child:
            self.assertEqual(child.stdout.readline(), "go\n")
            time.sleep(0.3)
            begun = time.monotonic()
            child.send_signal(signal.SIGINT)
            self.assertEqual(child.stdout.readline(), "heard\n")
            self.assertEqual(child.wait(20), 0)
            return time.monotonic() - begun

    def test_the_main_thread_takes_no_step_of_a_lock_in_python(self):
        """Left between two such steps, a lock would stay held, or be released twice."""
        lattice = ising2d.draw("pm", 1, "square", 46, 46)
        with steps_of_locks() as steps:
            lattice.ground()
            lattice.costs(range(8), progress=lambda done, whole: True)
            list(ising2d.in_order(abs, range(20), threads=3))
            next(ising2d.in_order(abs, itertools.count(), threads=3))
        self.assertEqual(steps, set())


@contextlib.contextmanager
def steps_of_locks():
    """The functions in Python of `threading` and `queue`, but for questions, that this thread calls meanwhile."""
    steps = set()

    def note(frame, event, argument):
        if event == "call" and frame.f_globals.get("__name__") in ("threading", "queue"):
            steps.add(frame.f_code.co_name)

    sys.setprofile(note)
    try:
        yield steps
    finally:
        sys.setprofile(None)
        steps -= {"main_thread", "current_thread", "ident", "active_count", "enumerate"}


if __name__ == "__main__":
    unittest.main()
