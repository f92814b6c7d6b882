"""How the package is made: no import cycles, the library loaded at the first call, no `Any` in what users
see, arrays and their shapes, tables that are kept, and pictures only where they are small."""

import ast
import inspect
import os
import pickle
import subprocess
import sys
import unittest
from pathlib import Path

import ising2d
from ising2d import Graph, Lattice, Refusal, RefusalCode

try:
    import numpy
except ImportError:
    numpy = None

PACKAGE = Path(ising2d.__file__).resolve().parent


def imported(path):
    """The modules of the package that a file imports anywhere in it, by their dotted names."""
    inside = path.relative_to(PACKAGE).with_suffix("").parts
    for node in ast.walk(ast.parse(path.read_text(encoding="utf-8"))):
        if isinstance(node, ast.ImportFrom) and node.level:
            above = inside[: len(inside) - node.level]
            names = [node.module] if node.module else [alias.name for alias in node.names]
            for name in names:
                found = ".".join((*above, *name.split(".")))
                yield found if is_module(found) else ".".join((*above, "__init__"))


def is_module(name):
    place = PACKAGE.joinpath(*name.split("."))
    return place.with_suffix(".py").exists() or (place / "__init__.py").exists()


class Modules(unittest.TestCase):
    def test_no_import_cycles(self):
        graph = {
            ".".join(path.relative_to(PACKAGE).with_suffix("").parts): set(imported(path))
            for path in PACKAGE.rglob("*.py")
        }
        done = set()

        def visit(name, above):
            self.assertNotIn(name, above, " -> ".join([*above, name]))
            if name not in done:
                for other in sorted(graph.get(name, ())):
                    visit(other, [*above, name])
                done.add(name)

        for name in graph:
            visit(name, [])
        self.assertGreater(len(done), 25)

    def run_python(self, code, **changes):
        return subprocess.run(
            [sys.executable, "-c", code],
            capture_output=True,
            text=True,
            env=dict(os.environ, PYTHONPATH=str(PACKAGE.parent), **changes),
        )

    def test_the_library_is_loaded_at_the_first_call(self):
        code = (
            "import ising2d; lattice = ising2d.Lattice('square', 1, 2, [1]); print(lattice)\n"
            "try: lattice.ground()\nexcept ising2d.LibraryMissing as fault: print(fault)"
        )
        found = self.run_python(code, ISING2D_LIBRARY="/nowhere/x.so")
        first, second = found.stdout.splitlines()
        self.assertEqual(first, "Lattice('square', 1, 2, [1])")
        self.assertIn("/nowhere/x.so", second)
        told = self.run_python("import ising2d._cli; ising2d._cli.main(['--help'])", ISING2D_LIBRARY="/nowhere/x.so")
        self.assertIn("COMMAND", told.stdout)

    def test_nothing_public_is_any(self):
        """No parameter and no result of a public function or method is Any by itself."""
        seen = 0
        for name in ising2d.__all__:
            own = getattr(ising2d, name)
            members = [own] if inspect.isfunction(own) else vars(own).values() if inspect.isclass(own) else []
            for member in members:
                call = getattr(member, "__func__", member)
                if isinstance(member, property):
                    call = member.fget
                if inspect.isfunction(call) and (not call.__name__.startswith("_") or call.__name__ == "__init__"):
                    for what, kind in call.__annotations__.items():
                        self.assertNotIn(kind, ("Any", "Optional[Any]"), f"{name}.{call.__name__}: {what}")
                        seen += 1
        self.assertGreater(seen, 150)

    def test_refusals_have_classes_and_names(self):
        for code in RefusalCode:
            refusal = Refusal(code, (1, 0))
            self.assertIsNot(type(refusal), Refusal)
            self.assertIs(refusal.code, code)
            self.assertEqual(refusal.name.upper(), code.name.replace("_", ""))
            self.assertIs(type(pickle.loads(pickle.dumps(refusal))), type(refusal))


class Shapes(unittest.TestCase):
    def refused(self, *given):
        with self.assertRaises(TypeError) as caught:
            ising2d.ground(*given)
        return str(caught.exception)

    def test_bools_are_refused(self):
        self.assertIn("bool True", self.refused("square", True, 2, [1]))
        self.assertIn("bool True", self.refused("square", 1, 2, [True]))
        with self.assertRaises(TypeError):
            Graph(2, [(0, 1, True)], [[0], [1]])

    @unittest.skipIf(numpy is None, "numpy is not there")
    def test_arrays_of_other_shapes_are_refused(self):
        couplings = numpy.arange(24)
        for given in (couplings.reshape(2, 12), couplings.reshape(2, 4, 3), numpy.array(3)):
            self.assertIn("one axis", self.refused("square", 4, 4, given))
        self.assertIn("array of bool", self.refused("square", 4, 4, couplings > 3))
        east, south = couplings[:12].reshape(4, 3), couplings[12:].reshape(3, 4)
        self.assertIn("south of shape (3, 4)", self.refused("square", 4, 4, (east, south.T)))
        self.assertIn("east of shape (4, 3)", self.refused("square", 4, 4, (south, south)))
        self.assertIn("square lattice or a cylinder", self.refused("triangular", 4, 4, (east, south)))

    @unittest.skipIf(numpy is None, "numpy is not there")
    def test_a_pair_of_arrays(self):
        source = numpy.random.default_rng(1)
        for kind, shape in (("square", (4, 2)), ("cylinder", (4, 3))):
            east, south = source.integers(-9, 10, shape), source.integers(-9, 10, (3, 3))
            flat = numpy.concatenate((east.ravel(), south.ravel()))
            self.assertEqual(Lattice(kind, 4, 3, (east, south)), Lattice(kind, 4, 3, flat))

    @unittest.skipIf(numpy is None, "numpy is not there")
    def test_couplings_are_arrays_of_numpy(self):
        for given in (
            Lattice("square", 1, 2, [3]),
            ising2d.draw("pm", 1, "square", 2, 2),
            ising2d.read("square,1,2\n3\nend\n"),
            Graph(2, [(0, 1, 7)]),
        ):
            self.assertIsInstance(given.couplings, numpy.ndarray)
            with self.assertRaises(ValueError):
                given.couplings[0] = 1


class Large(unittest.TestCase):
    """Texts about large answers are short, and the same with and without numpy."""

    def test_long_answers_have_short_texts(self):
        found = ising2d.draw("uniform", 1, "cylinder", 60, 60).wall(states=True)
        for answer in (found, found.ground, found.ground.nest, found.ground.instance):
            self.assertLess(len(repr(answer)), 300)
        self.assertIn("nest", repr(found.ground))
        self.assertIsNone(found.ground._repr_svg_())
        self.assertIsNone(found._repr_svg_())
        small = ising2d.draw("uniform", 1, "square", 8, 8)
        self.assertIn("loops", repr(small.ground()))
        self.assertIn("without a proof", repr(small.ground(loops=False)))
        self.assertTrue(small.ground()._repr_svg_())
        for answer in (small.clusters(), small.report(), small.maxcut(), small.ground().loops):
            self.assertLess(len(repr(answer).splitlines()), 2)

    def test_sums_in_plain_arithmetic(self):
        lattice = ising2d.draw("diluted", 3, "cylinder", 9, 7, p=0.3)
        found = lattice.wall(states=True)
        spins, couplings = found.ground.spins.tolist(), lattice.couplings.tolist()
        other, seam = found.turned.spins.tolist(), set(lattice.seam_bonds())
        products = [spins[u] * spins[v] for u, v in lattice.ends()]
        self.assertEqual(lattice.energy_of(spins), -sum(j * s for j, s in zip(couplings, products)))
        self.assertEqual(found.ground.broken(), [k for k, j in enumerate(couplings) if j * products[k] < 0])
        unlike = [other[u] * other[v] != s for (u, v), s in zip(lattice.ends(), products)]
        self.assertEqual(found.bonds, tuple(k for k, own in enumerate(unlike) if own != (k in seam)))
        turned = [-j if k in seam else j for k, j in enumerate(couplings)]
        self.assertEqual(lattice.turned_at_seam().couplings.tolist(), turned)
        self.assertEqual(lattice.negated().couplings.tolist(), [-j for j in couplings])
        clusters = lattice.clusters()
        sizes = [list(clusters).count(name) for name in clusters.sizes]
        self.assertEqual(sizes, list(clusters.sizes.values()))
        self.assertEqual(sizes, sorted(sizes, reverse=True))

    def test_tables_are_kept(self):
        from ising2d._lattices import _CACHE, _Cache, tables_of

        first, second = (ising2d.draw("pm", seed, "square", 7, 5) for seed in (1, 2))
        self.assertIs(first._tables(), second._tables())
        for size in range(2, 90):
            tables_of("square", 1, size)
        self.assertLessEqual(len(_CACHE.kept), _Cache._MOST)


if __name__ == "__main__":
    unittest.main()
