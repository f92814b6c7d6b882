"""Certified sets: written, judged by judge.py alone, and forged in each of their parts; and the laws that
only the package draws."""

import json
import random
import runpy
import statistics
import subprocess
import sys
import tempfile
import unittest
from pathlib import Path

import ising2d
from ising2d import Graph, Lattice
from ising2d._laws import Source
from test_calls import CASES, KINDS, drawn
from test_graphs import drawn as drawn_graph

JUDGE = Path(ising2d.__file__).with_name("judge.py")
MANY = min(CASES, 300)
judge = runpy.run_path(str(JUDGE))["judge"]


def is_proved(line):
    try:
        judge(json.loads(json.dumps(line)))
        return True
    except (ValueError, TypeError, KeyError, IndexError, AttributeError):
        return False


def entry(given, nest):
    return ising2d._bundle.entry_of("x", given, given.ground(nest=nest or None))


def changed(source, line):
    """A line with one of its numbers changed, and whether the change is in its proof or its instance."""
    line = json.loads(json.dumps(line))
    places = []

    def walk(value, above, key):
        if isinstance(value, dict):
            for name, own in value.items():
                walk(own, value, name)
        elif isinstance(value, list):
            for place, own in enumerate(value):
                walk(own, value, place)
        elif type(value) is int:
            places.append((above, key))

    for name in ("energy", "spins", "loops", "nest"):
        if name in line:
            walk(line[name], line, name)
    above, key = source.choice(places)
    above[key] += source.choice((-4, -2, -1, 1, 2, 4))
    return line


class Judge(unittest.TestCase):
    def test_it_is_short_and_needs_nothing(self):
        text = JUDGE.read_text(encoding="utf-8")
        self.assertLessEqual(len(text.splitlines()), 150)
        self.assertEqual(
            [line for line in text.splitlines() if line.startswith(("import", "from"))],
            ["import json", "import sys", "from typing import Any, List, Set, Tuple"],
        )

    def test_proofs_of_both_kinds_hold(self):
        source = random.Random(81)
        for case in range(MANY):
            given = Lattice(*drawn(source)) if case % 2 else drawn_graph(source)
            for nest in (False, True):
                with self.subTest(case=case, nest=nest, given=given):
                    judge(entry(given, nest))

    def test_forged_proofs_are_judged_as_by_the_library(self):
        """A changed number gives a no, or a line that the library's checker takes for a proof too."""
        source, refused = random.Random(82), 0
        for case in range(2 * MANY):
            given, nest = Lattice(*drawn(source)), case % 2 == 1
            line = changed(source, entry(given, nest))
            with self.subTest(case=case, line=line):
                try:
                    if nest:
                        names = ("parents", "radii", "regions", "at_radii")
                        regions = [line["nest"][name] for name in names]
                        wanted = bool(given.check(line["energy"], line["spins"], nest=regions))
                    else:
                        wanted = bool(given.check(line["energy"], line["spins"], line["loops"]))
                except (ValueError, OverflowError):
                    wanted = False
                refused += not wanted
                # The judge does not ask that the bonds of a loop rise.
                if is_proved(line) != wanted:
                    self.assertFalse(wanted)
                    self.assertNotEqual([sorted(own) for _, own in line.get("loops", [])], [own for _, own in line.get("loops", [])])
        self.assertGreater(refused, MANY)

    def test_each_test_is_needed(self):
        """A proof that is wrong in one way, for each test of the judge."""
        square = entry(Lattice("square", 2, 2, [3, 4, 2, -5]), False)
        nested = entry(Lattice("square", 2, 2, [3, 4, 2, -5]), True)
        general = entry(Graph(2, [(0, 1, 7)], [[0], [1]]), False)
        self.assertTrue(all(map(is_proved, (square, nested, general))))
        proof = nested["nest"]
        for line, changes in (
            (square, {"kind": "torus"}),
            (square, {"couplings": [3, 4, 2]}),
            (square, {"couplings": [3, 4, 2, -5.0]}),
            (square, {"couplings": [3, 4, 2, True]}),
            (square, {"rows": 0}),
            (square, {"spins": [1, 1, -1]}),
            (square, {"spins": [1, 1, -1, 0]}),
            (square, {"spins": [1, 1, -1, 1]}),
            (square, {"energy": -9}),
            (square, {"loops": []}),
            (square, {"loops": [[4, [0, 1, 2, 3]], [1, [0, 1, 2, 3]]]}),
            (square, {"loops": [[4, [0, 1, 2]]]}),
            (square, {"loops": [[4, [0, 1, 2, 3, 3]]]}),
            (square, {"loops": [[4, [0, 1, 2, -1]]]}),
            (square, {"loops": [[5, [0, 1, 2, 3]], [-1, [0, 1, 2, 3]]]}),
            (square, {"couplings": [3, 4, 2, 5], "energy": -10}),
            (square, {"couplings": [3, 4, 1, -5], "energy": -11}),
            (general, {"rotation": [[1], [0]]}),
            (general, {"rotation": [[0, 0], [1]]}),
            (general, {"bonds": [[0, 2, 7]]}),
            (general, {"n": 3}),
            (nested, {"nest": {**proof, "radii": [radius + 1 for radius in proof["radii"]]}}),
            (nested, {"nest": {**proof, "radii": proof["radii"][:-1]}}),
            (nested, {"nest": {**proof, "regions": proof["regions"][:-1]}}),
            (nested, {"nest": {**proof, "parents": [0] * len(proof["parents"])}}),
            (nested, {"nest": {**proof, "at_radii": [9] * len(proof["at_radii"])}}),
            (nested, {"couplings": [3, 4, 2, 5], "energy": -10}),
            (nested, {"nest": None}),
        ):
            with self.subTest(changes=changes):
                self.assertFalse(is_proved({**line, **changes}))
        for name in square:
            if name != "id":
                self.assertFalse(is_proved({key: value for key, value in square.items() if key != name}))

    def test_a_set_by_the_command_line(self):
        with tempfile.TemporaryDirectory() as room:
            folder = Path(room) / "set"
            words = ["bundle", str(folder), "negative", "7", "cylinder", "4", "5", "--p", "0.3", "--count", "4"]
            made = subprocess.run([sys.executable, "-m", "ising2d", *words], capture_output=True, text=True)
            self.assertEqual((made.returncode, made.stderr), (0, ""))
            # -I: without the package, and without a path to it.
            told = subprocess.run([sys.executable, "-I", str(folder / "judge.py")], capture_output=True, text=True)
            self.assertEqual((told.returncode, told.stderr, told.stdout.count(" yes ")), (0, "", 4))
            lines = (folder / "set.jsonl").read_text().splitlines()
            forged = lines[1].replace('"energy":-', '"energy":-1')
            (folder / "set.jsonl").write_text("\n".join([lines[0], forged, "{", *lines[2:]]) + "\n")
            told = subprocess.run([sys.executable, "-I", str(folder / "judge.py")], capture_output=True, text=True)
            self.assertEqual((told.returncode, told.stdout.count(" yes "), told.stdout.count(" no: ")), (1, 3, 2))
            wrong = [*words[:2], "normal", *words[3:]]
            found = subprocess.run([sys.executable, "-m", "ising2d", *wrong], capture_output=True, text=True)
            self.assertEqual(found.returncode, 1)
            self.assertIn("no law of disorder", found.stderr)


class Laws(unittest.TestCase):
    def test_the_program_draws_the_same(self):
        for law in ("one", "alternate", "pm", "uniform"):
            for seed in (0, 1, 42, 2**63, 2**64 - 1):
                for kind in KINDS:
                    lattice = ising2d.draw(law, seed, kind, 5, 6)
                    own = Source(law, seed).couplings(len(lattice.couplings))
                    self.assertEqual(lattice.couplings.tolist(), own.tolist())
        walls = ising2d.ensemble("uniform", 3, 4, 5, 7)
        source = Source("uniform", 3)
        again = [Lattice("cylinder", 4, 5, source.couplings(4 * 5 + 3 * 5)).wall().difference for _ in range(7)]
        self.assertEqual(walls.walls.tolist(), again)

    def test_numbers_that_never_change(self):
        for law, p, wanted in (
            ("gaussian", None, [348835, 633119, 702652, 704368]),
            ("negative", 0.5, [1, -1, 1, 1]),
            ("diluted", 0.5, [-1, -1, 1, -1]),
        ):
            self.assertEqual(ising2d.draw(law, 42, "square", 2, 2, p).couplings.tolist(), wanted)

    def test_their_shares(self):
        draws = ising2d.draw("gaussian", 5, "square", 100, 100).couplings.tolist()
        self.assertLess(abs(statistics.fmean(draws)) / 2**20, 4 / len(draws) ** 0.5)
        self.assertLess(abs(statistics.pstdev(draws) / 2**20 - 1), 4 / len(draws) ** 0.5)
        normal = statistics.NormalDist(0, 2**20)
        self.assertLess(abs(sum(x < normal.inv_cdf(0.1) for x in draws) / len(draws) - 0.1), 0.01)
        for p in (0, 0.25, 1):
            diluted = ising2d.draw("diluted", 5, "square", 60, 60, p).couplings.tolist()
            self.assertLess(abs(diluted.count(0) / len(diluted) - p), 0.03)
            negative = ising2d.draw("negative", 5, "square", 60, 60, p).couplings.tolist()
            self.assertLess(abs(negative.count(-1) / len(negative) - p), 0.03)

    def test_ensembles(self):
        found = ising2d.ensemble("gaussian", 1, 6, 6, 40)
        walls = found.walls.tolist()
        self.assertEqual((found.sum, found.squares), (sum(walls), sum(w * w for w in walls)))
        self.assertAlmostEqual(found.mean_size, statistics.fmean(map(abs, walls)))
        sizes = [abs(wall) for wall in walls]
        self.assertAlmostEqual(found.size_error, statistics.pstdev(sizes) / 39**0.5, places=3)
        self.assertEqual(ising2d.ensemble("pm", 1, 50, 50, 2).walls.tolist(), ising2d.ensemble("pm", 1, 50, 50, 2).walls.tolist())
        large = ising2d.sample("pm", 1, 60, 60)
        self.assertEqual((large.spins, large.broken), (3600, (large.energy + large.sum) // 2))


class Samplers(unittest.TestCase):
    def test_a_sampler(self):
        try:
            import networkx  # noqa: F401
        except ImportError:
            self.skipTest("networkx is not there")
        found = ising2d.IsingSampler().sample_ising({"a": 0}, {("a", "b"): 0.75, ("b", "c"): -0.5, ("a", "c"): 1})
        self.assertEqual(found.first.energy, -2.25)
        self.assertEqual(found.first.sample["b"], found.first.sample["c"])
        self.assertEqual(found.info["error"], 0.0)
        self.assertTrue(found.info["proof"].check())
        with self.assertRaisesRegex(ValueError, "field at 'a'"):
            ising2d.IsingSampler().sample_ising({"a": 1}, {("a", "b"): 1})
        with self.assertRaises(TypeError):
            ising2d.IsingSampler().sample_ising([0, 1], {("a", "b"): 1})

    def test_a_cut_of_a_graph(self):
        try:
            import networkx
        except ImportError:
            self.skipTest("networkx is not there")
        graph = networkx.cycle_graph(["a", "b", "c"])
        found = ising2d.maxcut(graph, attr=None)
        self.assertEqual((found.weight, len(found.edge_labels())), (2, 2))
        self.assertTrue(found.check())
        self.assertEqual(set(found.by_node()), {"a", "b", "c"})
        with self.assertRaises(ising2d.NotPlanar):
            ising2d.maxcut(networkx.complete_graph(5), attr=None)
        with self.assertRaises(TypeError):
            ising2d.maxcut("square", 2)


if __name__ == "__main__":
    unittest.main()
