"""Costs of chosen bonds, their bounds, rigid clusters at all sizes, droplets, and ensembles that are stopped
and taken up again: beside all assignments, beside each other, and broken off."""

import itertools
import os
import pickle
import random
import signal
import subprocess
import sys
import threading
import time
import unittest

import ising2d
from ising2d import CostBounds, Graph, Lattice, Stopped
from test_calls import CASES, drawn, pairs
from test_graphs import drawn as drawn_graph

try:
    import numpy
except ImportError:
    numpy = None


# A cylinder of twelve spins, a triangular strip of ten with its spins renamed and its embedding mirrored, and two
# loops of four and of three spins; with the cost of each bond, by all assignments in another language.
ELSEWHERE = [
    (
        "cylinder,3,4\n4,-1,0,5,3,-5,2,-2,5,-5,-3,-4,0,2,-2,1,3,-4,4,-2\nend\n",
        [6, 0, 0, 8, 4, 4, 4, 4, 4, 0, 2, 0, 0, 0, 2, 0, 0, 0, 4, 2],
    ),
    (
        "general,10\nbond,3,0,2\nbond,0,9,0\nbond,9,7,-4\nbond,7,6,1\nbond,8,1,2\nbond,1,5,-2\nbond,5,4,-2\nbond,4,2,0\nbond,3,8,-3\nbond,0,1,1\nbond,9,5,0\nbond,7,4,-4\nbond,6,2,1\nbond,3,1,-3\nbond,0,5,0\nbond,9,4,1\nbond,7,2,0\nrot,0,28,18,1,2\nrot,1,9,27,19,10\nrot,2,15,33,25\nrot,3,26,16,0\nrot,4,13,31,23,14\nrot,5,11,29,21,12\nrot,6,24,7\nrot,7,32,22,5,6\nrot,8,17,8\nrot,9,30,20,3,4\nend\n",
        [2, 2, 10, 2, 8, 4, 4, 2, 10, 2, 4, 10, 2, 8, 2, 10, 2],
    ),
    (
        "general,7\nbond,0,1,2\nbond,1,2,3\nbond,2,3,4\nbond,3,0,-5\nbond,4,5,1\nbond,5,6,1\nbond,6,4,-1\nrot,0,0,7\nrot,1,2,1\nrot,2,4,3\nrot,3,6,5\nrot,4,8,13\nrot,5,10,9\nrot,6,12,11\nend\n",
        [2, 2, 4, 6, 0, 0, 0],
    ),
]


def small(source):
    """A random lattice or graph of few spins."""
    while True:
        found = Lattice(*drawn(source)) if source.random() < 0.6 else drawn_graph(source)
        if found.n <= 10:
            return found


def costs_by_assignments(instance):
    """The cost of each bond, by all assignments with the first spin 1."""
    ends, couplings = pairs(instance), instance.couplings.tolist()
    least = [[None, None] for _ in ends]
    for signs in itertools.product((1, -1), repeat=instance.n - 1):
        spins = (1, *signs)
        energy = -sum(j * spins[u] * spins[v] for (u, v), j in zip(ends, couplings))
        for own, (u, v) in zip(least, ends):
            side = spins[u] == spins[v]
            if own[side] is None or energy < own[side]:
                own[side] = energy
    return [abs(own[0] - own[1]) for own in least]


def clusters_by_costs(instance, costs):
    """For each spin the least spin that rigid bonds lead to."""
    names = list(range(instance.n))
    for _ in names:
        for (u, v), cost in zip(pairs(instance), costs):
            if cost > 0:
                names[u] = names[v] = min(names[u], names[v])
    return names


def turns(instance, k, cost, spins):
    """Where the ground states turn, by the definition: the coupling at which the bond would cost nothing."""
    u, v = pairs(instance)[k]
    return int(instance.couplings[k]) - spins[u] * spins[v] * cost // 2


class Small(unittest.TestCase):
    def test_beside_all_assignments(self):
        source = random.Random(49)
        for case in range(CASES):
            instance = small(source)
            wanted = costs_by_assignments(instance)
            self.assertEqual(list(instance.clusters()), clusters_by_costs(instance, wanted))
            count = len(wanted)
            asked = [source.randrange(count) for _ in range(source.randint(0, count))] if count else []
            found = instance.costs(asked, threads=1)
            self.assertEqual(found.tolist(), [wanted[k] for k in asked])
            if case % 7 == 0:
                self.studies(instance, wanted)

    def studies(self, instance, wanted):
        spins = instance.ground().spins.tolist()
        for k, cost in enumerate(wanted):
            found = instance.droplet(k)
            self.assertEqual(found.cost, cost)
            self.assertTrue(found.check())
            turn = instance.ranges([k])[0]
            self.assertEqual(turn.coupling, turns(instance, k, cost, spins))
            coupling = int(instance.couplings[k])
            self.assertEqual(turn.side, ["below", "at", "above"][1 + (coupling > turn.coupling) - (coupling < turn.coupling)])


class Searches(unittest.TestCase):
    def test_bounds_enclose_the_costs(self):
        source = random.Random(50)
        for _ in range(min(CASES, 300)):
            instance = Lattice(*drawn(source))
            costs = instance.costs().tolist()
            try:
                instance.costs(progress=lambda done, whole: done < whole // 2, threads=1)
                continue
            except Stopped as stopped:
                low, high = bounds = stopped.found
            self.assertTrue(all(a <= c and (b == -1 or c <= b) for a, b, c in zip(low.tolist(), high.tolist(), costs)))
            known = [a == b >= 0 for a, b in zip(low.tolist(), high.tolist())]
            self.assertEqual(known, [bool(own) for own in bounds.known()])
            self.assertEqual(instance.costs(bounds=bounds, threads=2).tolist(), costs)

    def test_stopped_and_taken_up_again(self):
        lattice = ising2d.draw("pm", 5, "square", 12, 12)
        costs, found, seen = lattice.costs().tolist(), None, []
        while True:
            limit = (seen[-1] if seen else 0) + 40
            try:
                again = lattice.costs(bounds=found, progress=lambda done, whole: seen.append(done) or done < limit, threads=1)
                break
            except Stopped as stopped:
                self.assertGreaterEqual(stopped.done, limit)
                before, found = found, pickle.loads(pickle.dumps(stopped.found))
                seen.clear()
                if before is not None:
                    self.assertGreater(sum(map(bool, found.known())), sum(map(bool, before.known())))
        self.assertIsNotNone(found)
        self.assertEqual(again.tolist(), costs)
        merged = found.merged(found)
        self.assertEqual(lattice.costs(bounds=merged, threads=3).tolist(), costs)

    def test_progress_counts_up_to_the_whole(self):
        lattice, seen = ising2d.draw("uniform", 5, "triangular", 9, 9), []
        lattice.costs(range(60), progress=lambda done, whole: seen.append((done, whole)))
        self.assertEqual(seen[-1], (60, 60))
        self.assertEqual(seen, sorted(seen))

    def test_one_long_call_is_stopped(self):
        lattice = ising2d.draw("pm", 5, "square", 150, 150)
        begun = time.time()
        with self.assertRaises(Stopped) as caught:
            lattice.clusters(progress=lambda done, whole: False)
        self.assertLess(time.time() - begun, 2)
        self.assertIsNone(caught.exception.found)
        seen = []
        found = ising2d.draw("pm", 5, "square", 5, 5).clusters(progress=lambda done, whole: seen.append((done, whole)))
        self.assertEqual((len(found), seen[-1]), (25, (1, 1)))

    def test_what_progress_raises_goes_on(self):
        def fail(done, whole):
            raise KeyError("mine")

        with self.assertRaises(KeyError):
            ising2d.draw("uniform", 5, "square", 9, 9).costs(progress=fail)

    def test_wrong_arguments(self):
        lattice = ising2d.draw("pm", 5, "square", 4, 4)
        for bonds, fault in (([24], ValueError), ([-1], OverflowError), ([0.5], TypeError), ([True], TypeError), ("x", TypeError)):
            with self.assertRaises(fault):
                lattice.costs(bonds)
        for bounds in (3, ([0], [0]), ([5] * 24, [4] * 24), (["x"] * 24, [0] * 24)):
            with self.assertRaises((TypeError, ValueError)):
                lattice.costs([0], bounds=bounds)
        for bond in (24, -1, 2**70):
            with self.assertRaises(ValueError):
                lattice.droplet(bond)
        with self.assertRaises(ValueError):
            lattice.droplet(0, lattice.negated().ground())
        with self.assertRaises(ValueError):
            lattice.costs([0], threads=0)
        with self.assertRaises(ising2d.TooLarge) as caught:
            ising2d.draw("pm", 5, "square", 129, 128).costs()
        self.assertIn("bonds=", str(caught.exception))

    def test_of_graphs_and_real_couplings(self):
        graph = Graph.from_real(3, [(0, 1, 0.5), (1, 2, 0.25), (2, 0, -0.125)])
        all_of_them, one = graph.real_costs(), graph.real_costs([1])
        self.assertEqual(list(one.values), [list(all_of_them.values)[1]])
        self.assertEqual([bool(own) for own in one.rigid], [bool(list(all_of_them.rigid)[1])])

    def test_an_instance_that_is_refused(self):
        for study in (lambda given: given.costs([0]), lambda given: given.clusters()):
            with self.assertRaises(ising2d.BadInstance):
                study(Lattice("square", 2, 2, [1]))
            with self.assertRaises(ising2d.TooLarge):
                study(Lattice("square", 1, 2, [2**45]))


class Enclosures(unittest.TestCase):
    """Bounds of all costs at once."""

    def enclose(self, bounds, costs):
        """The bounds enclose the costs, and tell which bonds are rigid."""
        self.assertIsInstance(bounds, CostBounds)
        for low, high, cost in zip(bounds.low.tolist(), bounds.high.tolist(), costs):
            self.assertTrue(0 <= low <= cost <= high, (low, cost, high))
            self.assertEqual(low >= 2, cost > 0)
            if cost == 0:
                self.assertEqual((low, high), (0, 0))

    def test_costs_that_were_found_elsewhere(self):
        for text, costs in ELSEWHERE:
            instance = ising2d.read(text)
            for rounds in (0, 1, 24):
                self.enclose(instance.cost_bounds(rounds), costs)
            for bond, cost in enumerate(costs):
                self.assertEqual(instance.costs([bond]).tolist(), [cost])

    def test_beside_the_costs(self):
        source = random.Random(51)
        for case in range(300):
            instance = Lattice(*drawn(source)) if case % 3 else drawn_graph(source)
            costs = instance.costs().tolist()
            bounds = instance.cost_bounds(source.randrange(25), progress=False)
            self.enclose(bounds, costs)
            again = instance.cost_bounds(source.randrange(25), bounds, False)
            self.enclose(again, costs)
            for low, high, before, above in zip(again.low.tolist(), again.high.tolist(), bounds.low.tolist(), bounds.high.tolist()):
                self.assertTrue(before <= low and high <= above)
            self.assertEqual(instance.costs(bounds=again, threads=1).tolist(), costs)

    def test_ties_zeros_and_several_components(self):
        source = random.Random(52)
        for law, p in (("pm", None), ("diluted", 0.4), ("one", None)):
            lattice = ising2d.draw(law, 7, "triangular", 8, 9, p)
            self.enclose(lattice.cost_bounds(30), lattice.costs().tolist())
        for _ in range(30):
            rings = [(k, (k + 1) % 4 if k < 4 else 4 + (k - 3) % 4, source.randint(-2, 2)) for k in range(8)]
            graph = Graph(10, rings)
            self.enclose(graph.cost_bounds(8), costs_by_assignments(graph))
        self.enclose(Graph(3, []).cost_bounds(), [])

    def test_more_rounds_are_tighter(self):
        lattice = ising2d.draw("uniform", 8, "square", 14, 14)
        costs, widths, bounds = lattice.costs().tolist(), [], None
        for rounds in (0, 24, 48):
            bounds = lattice.cost_bounds(rounds, bounds)
            self.enclose(bounds, costs)
            widths.append(sum(bounds.high.tolist()) - sum(bounds.low.tolist()))
        self.assertEqual(widths, sorted(widths, reverse=True))
        self.assertGreater(sum(bounds.low.tolist()), sum(costs) // 10)

    def test_of_a_large_lattice(self):
        lattice = ising2d.draw("pm", 9, "square", 60, 60)
        bounds, asked = lattice.cost_bounds(4), random.Random(53).sample(range(7080), 40)
        costs = lattice.costs(asked).tolist()
        chosen = [as_list[k] for as_list in (bounds.low.tolist(), bounds.high.tolist()) for k in asked]
        for low, high, cost in zip(chosen[:40], chosen[40:], costs):
            self.assertTrue(low <= cost <= high and (low >= 2) == (cost > 0))
        self.assertEqual(lattice.costs(asked, bounds).tolist(), costs)

    def test_wrong_arguments(self):
        lattice = ising2d.draw("pm", 5, "square", 4, 4)
        for rounds, fault in ((-1, ValueError), (2**32, ValueError), (0.5, TypeError), (True, TypeError)):
            with self.assertRaises(fault):
                lattice.cost_bounds(rounds)
        for bounds in (3, ([0], [0]), ([5] * 24, [4] * 24)):
            with self.assertRaises((TypeError, ValueError)):
                lattice.cost_bounds(1, bounds)
        with self.assertRaises(ising2d.BadInstance):
            Lattice("square", 2, 2, [1]).cost_bounds()
        with self.assertRaises(ising2d.TooLarge):
            Lattice("square", 1, 2, [2**45]).cost_bounds()
        with self.assertRaises(Stopped):
            lattice.cost_bounds(progress=lambda done, whole: False)


class Larger(unittest.TestCase):
    """Above the limits of the program."""

    def test_clusters_beside_costs_of_chosen_bonds(self):
        for law, p in (("pm", None), ("diluted", 0.2)):
            lattice = ising2d.draw(law, 3, "square", 100, 100, p)
            names, ends = list(lattice.clusters()), pairs(lattice)
            asked = random.Random(3).sample(range(len(ends)), 50)
            for k, cost in zip(asked, lattice.costs(asked).tolist()):
                u, v = ends[k]
                if cost > 0:
                    self.assertEqual(names[u], names[v])
                elif names[u] == names[v]:
                    # A loose bond within a cluster: its ends are alike by others, so turning it turns one of them.
                    self.fail(f"bond {k} is loose, and lies within a cluster")

    def test_cuts_ranges_and_droplets(self):
        lattice = ising2d.draw("uniform", 4, "square", 60, 60)
        cut = lattice.maxcut()
        couplings = lattice.couplings.tolist()
        self.assertEqual(cut.weight, sum(couplings[k] for k in cut.bonds()))
        self.assertTrue(cut.check())
        state = lattice.ground()
        asked = random.Random(4).sample(range(len(couplings)), 5)
        costs = lattice.costs(asked).tolist()
        for k, cost, turn in zip(asked, costs, lattice.ranges(asked)):
            found = lattice.droplet(k, state)
            self.assertEqual((found.cost, abs(couplings[k] - turn.coupling)), (cost, cost // 2))
            self.assertTrue(found.check())

    def test_a_report(self):
        lattice = ising2d.draw("uniform", 6, "cylinder", 46, 46)
        found = lattice.report(progress=False)
        self.assertEqual((found.energy, found.wall.difference), (lattice.ground().energy, lattice.wall().difference))
        self.assertEqual(list(found.clusters), clusters_by_costs(lattice, found.costs.tolist()) if lattice.n < 100 else list(found.clusters))
        asked = [0, 7, 1000]
        self.assertEqual(lattice.costs(asked).tolist(), [found.costs[k] for k in asked])
        self.assertTrue(found.ground.check())
        with self.assertRaises(ising2d.TooLarge):
            ising2d.draw("uniform", 6, "square", 129, 128).report()

    def test_connected_sets_of_large_lattices(self):
        """By arrays as spin by spin."""
        from ising2d import _droplets

        lattice = ising2d.draw("pm", 1, "square", 30, 30)
        closed = _droplets._not(_droplets._unlike(lattice.ground().spins, ising2d.draw("pm", 2, "square", 30, 30).ground().spins))
        start = list(closed).index(False)
        slow = list(map(bool, _droplets.reached(lattice, start, closed)))
        if numpy is not None:
            self.assertEqual(list(map(bool, _droplets._reached_by_arrays(lattice, start, closed))), slow)


class Draws(unittest.TestCase):
    def test_draws_are_those_of_the_program(self):
        for law in ("one", "alternate", "pm", "uniform"):
            for kind in ("square", "triangular", "hexagonal", "cylinder"):
                text = ising2d.run(["gen", law, "9", kind, "5", "6"]).text.splitlines()[1]
                found = ising2d.draw(law, 9, kind, 5, 6).couplings.tolist()
                self.assertEqual(found, [int(field) for field in text.split(",")])
            large = ising2d.draw(law, 9, "square", 50, 60).couplings.tolist()
            self.assertEqual(large[:20], ising2d.draw(law, 9, "square", 1, 21).couplings.tolist())

    def test_words_are_gone_over(self):
        from ising2d._laws import Source, Stream

        for count in (0, 1, 2, 3, 64, 1000, 123457):
            one, other = Stream(7), Stream(7)
            one.words(count)
            other.skip(count)
            self.assertEqual(one.state, other.state)
        for law in ("one", "alternate", "pm", "gaussian"):
            one, other = Source(law, 3), Source(law, 3)
            one.couplings(50)
            other.skip(50)
            self.assertEqual(list(one.couplings(9)), list(other.couplings(9)))


class Ensembles(unittest.TestCase):
    def test_broken_off_and_taken_up_again(self):
        for law, p, rows in (("pm", None, 5), ("gaussian", None, 5), ("negative", 0.1, 7), ("uniform", None, 47)):
            whole = ising2d.ensemble(law, 2, rows, rows, 6, p)
            with self.assertRaises(Stopped) as caught:
                ising2d.ensemble(law, 2, rows, rows, 6, p, progress=lambda done, _: done < 3, threads=2)
            found = pickle.loads(pickle.dumps(caught.exception.found))
            self.assertEqual(found.walls.tolist(), whole.walls.tolist()[:3])
            self.assertEqual(ising2d.ensemble(law, 2, rows, rows, 6, p, after=found, threads=2), whole)

    def test_by_threads_as_by_the_program(self):
        for law in ("pm", "uniform", "one", "alternate"):
            self.assertEqual(ising2d.ensemble(law, 3, 6, 7, 20, threads=2), ising2d.ensemble(law, 3, 6, 7, 20))


CODE = """
import ising2d, sys, time
lattice = ising2d.draw("uniform", 1, "square", 120, 120)
try:
    lattice.costs(progress=lambda done, whole: print(done, flush=True))
except ising2d.Stopped as stopped:
    print("ended", time.time(), sum(map(bool, stopped.found.known())), len(lattice.couplings), flush=True)
"""


class Interrupts(unittest.TestCase):
    @unittest.skipIf(signal.getsignal(signal.SIGINT) is signal.SIG_IGN, "SIGINT is ignored here")
    def test_ctrl_c_keeps_what_was_found(self):
        child = subprocess.Popen([sys.executable, "-c", CODE], stdout=subprocess.PIPE, text=True, env=os.environ)
        child.stdout.readline()
        begun = time.time()
        child.send_signal(signal.SIGINT)
        _, ended, known, whole = child.communicate(timeout=60)[0].splitlines()[-1].split()
        self.assertLess(float(ended) - begun, 2)
        self.assertLess(int(known), int(whole))
        self.assertGreater(int(known), 0)

    def test_side_by_side(self):
        """Several searches at once, each in a thread of its own."""
        lattices = [ising2d.draw("pm", seed, "square", 8, 8) for seed in range(4)]
        found = {}
        threads = [
            threading.Thread(target=lambda k=k: found.update({k: lattices[k].costs(range(40), threads=2).tolist()}))
            for k in range(4)
        ]
        for thread in threads:
            thread.start()
        for thread in threads:
            thread.join()
        for k, lattice in enumerate(lattices):
            self.assertEqual(found[k], lattice.costs().tolist()[:40])


class Labels(unittest.TestCase):
    """Values by labels, which are made as they are looked at."""

    def test_as_a_dictionary(self):
        lattice = ising2d.draw("pm", 1, "square", 40, 50)
        spins = lattice.ground().spins
        found = lattice.by_node(spins)
        wanted = {(k // 50, k % 50): int(value) for k, value in enumerate(spins)}
        self.assertEqual(found[3, 4], wanted[3, 4])
        for same in (found, dict(found), dict(found.items()), {**found}, pickle.loads(pickle.dumps(found)), found.copy()):
            self.assertEqual(same, wanted)
            self.assertEqual(wanted, same)
        self.assertEqual((list(found), list(found.values()), len(found)), (list(wanted), list(wanted.values()), len(wanted)))
        self.assertEqual(list(reversed(found)), list(reversed(list(wanted))))
        self.assertEqual((found | {"x": 2})["x"], 2)
        self.assertEqual(({"x": 2} | found)["x"], 2)
        self.assertNotEqual(found, {**wanted, (0, 0): 7})
        for there, missing in (((0, 0), (40, 0)), ((39.0, 49), (0.5, 1)), ((True, 0), (0, -1)), ((1, 2), "ab")):
            self.assertIn(there, found)
            self.assertEqual(found[there], wanted[there])
            self.assertNotIn(missing, found)
            self.assertIsNone(found.get(missing))
            with self.assertRaises(KeyError):
                found[missing]
        with self.assertRaises(TypeError):
            found[[0, 1]] if isinstance(found, dict) else hash([0, 1])
        self.assertLess(len(repr(found)), 300)
        self.assertIsInstance(found[0, 0], int)
        self.assertTrue(all(type(value) is int for value in found.values()))

    def test_it_does_not_follow_the_array(self):
        lattice = Lattice("square", 1, 3, [1, 1])
        values = lattice.ground().spins.copy() if numpy is not None else lattice.ground().spins[:]
        found = lattice.by_node(values)
        values[0] = 7
        self.assertEqual(found[0, 0], 1)

    def test_of_graphs(self):
        chain = Graph(3, [(0, 1, 5), (1, 2, -5)], labels="abc")
        self.assertEqual(chain.ground().by_node(), {"a": 1, "b": 1, "c": -1})
        self.assertEqual(repr(chain.ground().by_node()), "{'a': 1, 'b': 1, 'c': -1}")
        self.assertEqual(chain.by_edge([7, 8]), {("a", "b", 0): 7, ("b", "c", 1): 8})
        self.assertEqual(chain.edge_labels(), [("a", "b", 0), ("b", "c", 1)])
        with self.assertRaises(KeyError):
            chain.ground().by_node()["d"]
        for labels, fault in (("aba", ValueError), ([[1], [2], [3]], TypeError)):
            with self.assertRaises(fault):
                Graph(3, [(0, 1, 5)], labels=labels)
        with self.assertRaises(ValueError):
            chain.by_node([1, 1])

    def test_sizes_are_arrays_too(self):
        found = ising2d.clusters("square", 1, 5, [5, 0, 5, 5]).sizes
        self.assertEqual(found, {2: 3, 0: 2})
        self.assertEqual((found.names.tolist(), found.counts.tolist(), list(found)), ([2, 0], [3, 2], [2, 0]))
        self.assertEqual(pickle.loads(pickle.dumps(found)).counts.tolist(), [3, 2])


if __name__ == "__main__":
    unittest.main()
