"""Every example of the package's modules and of its pages; the types; and the pictures."""

import doctest
import importlib
import importlib.util
import pkgutil
import subprocess
import sys
import time
import unittest
import xml.etree.ElementTree as tree
from pathlib import Path

import ising2d
from ising2d import Graph, Lattice

PACKAGE = Path(ising2d.__file__).resolve().parent
DOCS = PACKAGE.parents[2] / "docs"
PAGES = (PACKAGE.parent / "README.md", DOCS / "BINDINGS.md", DOCS / "TOUR.md")


class Examples(unittest.TestCase):
    def test_of_each_module(self):
        tried = 0
        for found in pkgutil.iter_modules(ising2d.__path__):
            # Beside the modules an installed package has the library.
            if not found.name.startswith("_") or found.name == "__main__":
                continue
            with self.subTest(module=found.name):
                results = doctest.testmod(importlib.import_module("ising2d." + found.name))
                self.assertEqual(results.failed, 0)
                tried += results.attempted
        self.assertEqual(doctest.testmod(ising2d).failed, 0)
        self.assertGreater(tried, 40)

    def test_of_the_pages(self):
        for page in PAGES:
            if page.exists():
                with self.subTest(page=page.name):
                    results = doctest.testfile(str(page), module_relative=False)
                    self.assertEqual(results.failed, 0)
                    self.assertGreater(results.attempted, 0)

    def test_every_call_has_one(self):
        for name in ising2d.__all__:
            own = getattr(ising2d, name)
            if name not in ("Instance", "__version__", "Run", "OddCut", "Step", "Width", "RealTurn"):
                self.assertIn(">>>", own.__doc__ or "", name)


class Scripts(unittest.TestCase):
    FOLDER = DOCS.parent / "examples" / "python"

    def test_each_runs(self):
        for name, words, part in (
            ("annealer.py", (), "minima"),
            ("walls.py", ("60", "4"), "wall energy"),
            ("stiffness.py", ("--sizes", "6,8,10", "--samples", "20"), "slope of the logarithms"),
            ("clusters.py", ("--length", "20", "--samples", "3"), "share of the largest cluster"),
            ("drawings.py", ("300",), "energy -287, proved: True"),
        ):
            place = self.FOLDER / name
            if place.exists():
                with self.subTest(script=name):
                    ran = subprocess.run([sys.executable, str(place), *words], capture_output=True, text=True)
                    self.assertEqual((ran.returncode, ran.stderr), (0, ""))
                    self.assertIn(part, ran.stdout)

    def test_the_decoder_runs_with_numpy(self):
        place = self.FOLDER / "toric_code.py"
        if place.exists():
            ran = subprocess.run([sys.executable, str(place), "20"], capture_output=True, text=True)
            if importlib.util.find_spec("numpy"):
                self.assertEqual((ran.returncode, ran.stderr), (0, ""))
                self.assertIn("640 T-joins, each proved", ran.stdout)
            else:
                self.assertEqual((ran.returncode, ran.stderr), (1, "this example needs numpy\n"))


@unittest.skipUnless(importlib.util.find_spec("mypy") and importlib.util.find_spec("numpy"), "mypy or numpy is not there")
class Types(unittest.TestCase):
    def test_a_checker_passes_them(self):
        sources = "".join(path.read_text(encoding="utf-8") for path in PACKAGE.glob("*.py"))
        self.assertNotIn("type: ignore", sources)
        found = subprocess.run(
            [sys.executable, "-m", "mypy", "--strict", "--cache-dir=/dev/null", "ising2d"],
            cwd=PACKAGE.parent,
            capture_output=True,
            text=True,
        )
        self.assertEqual(found.returncode, 0, found.stdout)


class Pictures(unittest.TestCase):
    def shapes(self, text):
        """The tags of a picture that is well-formed."""
        return [element.tag.rpartition("}")[2] for element in tree.fromstring(text).iter()]

    def test_each_kind_at_two_sizes(self):
        for kind in ("square", "triangular", "hexagonal", "cylinder"):
            for size in (8, 45):
                lattice = ising2d.draw("pm", 3, kind, size, size)
                answers = [lattice.ground()]
                if size == 8:
                    answers.append(lattice.clusters())
                if kind == "cylinder":
                    answers.append(lattice.wall(states=True))
                for answer in answers:
                    with self.subTest(kind=kind, size=size, answer=type(answer).__name__):
                        self.assertIn("path", self.shapes(answer.svg()))
                        self.assertLess(len(answer.svg()), 400000)

    def test_a_large_one(self):
        begun = time.process_time()
        found = ising2d.draw("pm", 3, "cylinder", 120, 120).ground()
        self.assertIn("path", self.shapes(found.svg()))
        self.assertLess(time.process_time() - begun, 20)

    def test_frustrated_faces(self):
        text = ising2d.ground("square", 2, 2, [3, 4, 2, -5]).svg()
        self.assertIn("frustrated face", text)
        self.assertNotIn("frustrated face", ising2d.ground("square", 2, 2, [3, 4, 2, 5]).svg())

    def test_the_outer_face_is_never_shaded(self):
        # Both the face and the outer one are frustrated.
        from ising2d._drawings import Drawing

        for instance in (
            Lattice("square", 2, 2, [3, 4, 2, -5]),
            Lattice("triangular", 2, 2, [-1] * 5),
            Lattice("hexagonal", 2, 3, [4, 5, 6, 7, 3, -8]),
            Lattice("cylinder", 3, 3, [-1] + [1] * 14),
        ):
            faces = Drawing(instance).faces
            sizes = {"square": [4], "triangular": [3, 3], "hexagonal": [6], "cylinder": [4] * 6}[
                instance.kind
            ]
            self.assertEqual([len(face.bonds) for face in faces], sizes)

    def test_the_first_column_of_a_cylinder_is_drawn_twice(self):
        from ising2d._drawings import Drawing

        drawing = Drawing(Lattice("cylinder", 2, 3, [1] * 9))
        self.assertEqual([bond for bond in range(9) if len(drawing.shifts(bond)) == 2], [6])

    def test_spins_near_each_other_lie_apart(self):
        chain = Graph(4, [(0, 1, 1), (1, 2, 1), (2, 3, 1)], labels="abcd")
        near = chain.ground().svg(places=[(0, 0), (100, 0), (101, 0), (200, 0)])
        width = float(tree.fromstring(near).get("width"))
        self.assertGreater(width, 800)
        self.assertLess(width, 1000)
        with self.assertRaises(ValueError):
            chain.ground().svg(places=[(0, 0)] * 4, cell=0)

    def test_places_are_handed_in(self):
        graph = Graph(3, [(0, 1, 1), (1, 2, 1), (2, 0, -1)], [[0, 5], [2, 1], [4, 3]], labels="abc")
        for places in ([(0, 0), (1, 0), (0, 1)], {"a": (0, 0), "b": (1, 0), "c": (0, 1)}):
            self.assertIn("frustrated face", graph.ground().svg(places=places))
        with self.assertRaises(ValueError):
            graph.ground().svg(places=[(0, 0)])
        self.assertIsNone(graph.ground()._repr_svg_())
        self.assertTrue(ising2d.ground("square", 1, 2, [1])._repr_svg_())
        with self.assertRaises(TypeError):
            ising2d.svg(5)

    def test_small_ones(self):
        for instance in (
            Lattice("square", 1, 1, []),
            Lattice("square", 1, 2, [0]),
            Lattice("cylinder", 1, 3, [0, 0, 0]),
        ):
            self.shapes(instance.ground().svg())
            self.shapes(instance.clusters().svg())


if __name__ == "__main__":
    unittest.main()
