"""Wrong input: which exception it raises, and that its text names the value and what is allowed."""

import os
import re
import shutil
import subprocess
import sys
import tempfile
import unittest
from pathlib import Path

import ising2d
from ising2d import Graph, Refusal

try:
    import numpy
except ImportError:
    numpy = None

SQUARE = ("square", 2, 2, [3, 4, 2, -5])


def told(call, *arguments, **named):
    """The class and the text of the exception that a call raises."""
    try:
        call(*arguments, **named)
    except Exception as fault:
        return type(fault), str(fault)
    return None, ""


class Texts(unittest.TestCase):
    ROWS = (
        (ising2d.ground, ("kagome", 2, 2, []), Refusal, ("'kagome'", "square, triangular")),
        (ising2d.ground, ("square", 0, 2, []), Refusal, ("rows", ": 0", "1 or more")),
        (ising2d.ground, ("cylinder", 2, 2, [1]), Refusal, ("columns", ": 2", "cylinder 3")),
        (ising2d.ground, ("square", 2049, 2048, []), Refusal, ("4196352 spins", "at most 4194304")),
        (ising2d.costs, ("square", 128, 129, []), Refusal, ("16512 spins", "at most 16384")),
        (ising2d.ground, ("square", 2, 2, [1]), Refusal, ("1 couplings", "lattice, 4")),
        (
            ising2d.ground,
            ("square", 2, 2, [3, 4, 2, -(2**63)]),
            Refusal,
            ("coupling 3", str(-(2**63)), "2**63 - 1"),
        ),
        (ising2d.ground, ("square", 1, 2, [2**45]), Refusal, (str(2**45), "2**44")),
        (ising2d.wall, SQUARE, Refusal, ("seam", "cylinder")),
        (ising2d.ground, ("square", 2.0, 2, []), TypeError, ("rows", "whole number", "float 2.0")),
        (ising2d.ground, ("square", None, 2, []), TypeError, ("rows", "None")),
        (ising2d.ground, ("square", 2, -1, []), OverflowError, ("cols", "-1", "0 to 4294967295")),
        (ising2d.ground, (2.0, 2, 2, []), TypeError, ("kind", "square", "2.0")),
        (ising2d.ground, ("square", 2, 2, {3, 4, 2}), TypeError, ("couplings", "set has no order")),
        (ising2d.ground, ("square", 2, 2, {0: 1}), TypeError, ("couplings", "dict has no order")),
        (ising2d.ground, ("square", 2, 2, "3425"), TypeError, ("couplings", "text '3425'")),
        (ising2d.ground, ("square", 2, 2, 7), TypeError, ("couplings", "expected a list", "an int")),
        (ising2d.ground, ("square", 2, 2, [3, 4, 2, 0.5]), TypeError, ("couplings", "float 0.5", "from_real")),
        (ising2d.ground, ("square", 2, 2, [3, 4, 2, 2**63]), OverflowError, ("couplings", str(2**63))),
        (ising2d.check, (*SQUARE, -10.0, [1] * 4, []), TypeError, ("energy", "float -10.0")),
        (ising2d.check, (*SQUARE, -10, [1, 1, 0, 1], []), Refusal, ("spin 2", ": 0", "1 or -1")),
        (ising2d.check, (*SQUARE, -10, [1] * 4, [3]), TypeError, ("loops", "weight and bonds", "3")),
        (ising2d.check, (*SQUARE, -10, [1] * 4, {(4, (0,))}), TypeError, ("loops", "set has no order")),
        (ising2d.check, (*SQUARE, -10, [1] * 4, [(4, {0, 1})]), TypeError, ("bonds of a loop", "no order")),
        (lambda: Graph(0, [], []).ground(), (), Refusal, ("number of spins", ": 0", "1 or more")),
        (lambda: Graph(2, [(0, 5, 1)], [[0], [1]]).ground(), (), Refusal, ("bond 0", "(0, 5, 1)", "from 0 to n - 1")),
        (lambda: Graph(2, [(1, 1, 1)], [[0], [1]]).ground(), (), Refusal, ("bond 0", "(1, 1, 1)", "two spins")),
        (lambda: Graph(2, [(0, 1, 1)], [[0], [0]]).ground(), (), Refusal, ("spin 1", "dart 0", "[0]")),
        (
            lambda: Graph(2, [(0, 1)], [[0], [1]]).ground(),
            (),
            TypeError,
            ("bonds", "two spins and a coupling", "(0, 1)"),
        ),
        (lambda: Graph(2, [(0, 1, 1.5)], [[0], [1]]).ground(), (), TypeError, ("couplings of the bonds", "1.5")),
        (lambda: Graph(2, [(0, 1, 1)], 5).ground(), (), TypeError, ("rotation", "an int")),
        (lambda: Graph(2.0, [], []).ground(), (), TypeError, ("n:", "float 2.0")),
        (lambda: Graph(2, [(0, 1, 1)], seam={0}).wall(), (), TypeError, ("seam", "no order")),
        (ising2d.tjoin, (2, [(0, 1, 5)], [0]), Refusal, ("1 terminals", "even")),
        (ising2d.tjoin, (2, [(0, 1, 5)], [0, 7]), Refusal, ("terminal 7", "nodes, each once")),
        (ising2d.tjoin, (2, [(0, 1, 5)], None), TypeError, ("terminals", "NoneType")),
        (ising2d.tjoin, (0, [], []), Refusal, ("n is 0", "1 or more")),
        (ising2d.tjoin, (2, [(0, 1, -5)], []), Refusal, ("(0, 1, -5)", "weights of 0 or more")),
        (lambda: Graph(2, [(0, 1, 1)], [[0], [1]], [7]).wall(), (), Refusal, ("bond 7 of the seam", "bonds, each once")),
        (ising2d.tjoin, (2**22 + 1, [], []), Refusal, ("4194305 nodes", "at most 4194304")),
        (ising2d.tjoin, (2, [(0, 1, 2**45)], []), Refusal, ("the weights", str(2**45), "2**44")),
        (
            lambda: Graph(4, [(u, v, 1) for u in range(4) for v in range(u)]).ground(),
            (),
            Refusal,
            ("no drawing in the plane", "Euler number is 0", "Graph.from_bonds"),
        ),
        (ising2d.read, ("square,2,2\n\n3,x\n",), Refusal, ("line 3, field 2", "'x'", "-(2**63 - 1)")),
        (ising2d.read, ("square,2,2\n3,4\n2,-5\n",), Refusal, ("Unended (2)", "with the record end")),
        (ising2d.read, ("square,1,1\nend\n7\n",), Refusal, ("Trailing (12): line 3", "'7'", "nothing")),
        (ising2d.read, ("square,1,1\nend\n\nenergy,0\nspins,1\nend\n",), Refusal, ("Trailing", "line 4")),
        (ising2d.read, ("torus,1\nend\n",), Refusal, ("line 1", "'torus'", "square, triangular")),
        (ising2d.read, ('{"kind":"square","rows":2}',), Refusal, ("no member cols",)),
        (ising2d.read, ('{"kind":',), Refusal, ("BadJson", "not valid JSON", "one object")),
        (ising2d.tjoin, (2, [(0, 9, 5)], []), Refusal, ("edge 0", "(0, 9, 5)", "from 0 to 1")),
        (ising2d.postman, (2, []), Refusal, ("node 1", "one component")),
        (ising2d.draw, ("normal", 1, "square", 2, 2), Refusal, ("law", "one, alternate, pm, uniform, gaussian")),
        (ising2d.draw, ("pm", -1, "square", 2, 2), ValueError, ("seed is -1", "0 to")),
        (ising2d.ensemble, ("pm", 1, 8, 8, 0), ValueError, ("count is 0", "1 to")),
        (ising2d.widths, ("pm", 1, 8, 8, 1001), ValueError, ("count is 1001", "1 to 1000")),
        (ising2d.draw, ("diluted", 1, "square", 2, 2), ValueError, ("needs p",)),
        (ising2d.draw, ("diluted", 1, "square", 2, 2, 1.5), ValueError, ("p is 1.5", "0 to 1")),
        (ising2d.draw, ("pm", 1, "square", 2, 2, 0.5), ValueError, ("has none", "negative, diluted")),
        (ising2d.ensemble, ("pm", 1, 8, 2, 10), ValueError, ("cols is 2", "3 to")),
        (ising2d.sample, ("pm", 1, 2049, 2048), ValueError, ("4196352 spins", "4194304")),
        (ising2d.run, ("ground",), TypeError, ("words", "'ground'")),
        (ising2d.run, (["ground"], 5), TypeError, ("input", "5")),
        (ising2d.run, (["a\0"],), ValueError, ("NUL",)),
    )

    def test_each_names_the_value_and_what_is_allowed(self):
        for call, arguments, kind, parts in self.ROWS:
            with self.subTest(call=call, arguments=arguments):
                raised, text = told(call, *arguments)
                self.assertTrue(raised is not None and issubclass(raised, kind), text)
                for part in parts:
                    self.assertIn(part, text)

    def test_each_status_has_an_exception(self):
        # Status 5 was never seen of an instance, so the line judges the number alone.
        for status, kind in ((5, ising2d.NoProofFound), (6, MemoryError)):
            with self.assertRaises(kind) as raised:
                ising2d._ffi.Line().judge(status, None)
            self.assertIn("memory", str(raised.exception))

    def test_every_number_has_a_sentence(self):
        for number in (*range(1, 14), *range(15, 24)):
            refusal = Refusal(number, (1, 2))
            self.assertNotEqual(refusal.name, "Refused")
            self.assertNotIn("{", refusal.sentence)
            self.assertIn("allowed", refusal.sentence)
        for place in range(1, 12):
            self.assertIn("allowed", Refusal(19, (place, 0)).sentence)
        self.assertEqual(Refusal(99).name, "Refused")


@unittest.skipIf(numpy is None, "numpy is not there")
class Numpy(unittest.TestCase):
    def test_arrays_of_all_kinds(self):
        energy = ising2d.ground(*SQUARE).energy
        for kind in ("int8", "int16", "int32", "int64", ">i4", "O"):
            for given in (
                numpy.array(SQUARE[3], dtype=kind),
                numpy.array([SQUARE[3]] * 2, dtype=kind).T[:, 0],
            ):
                found = ising2d.ground("square", 2, 2, given)
                self.assertEqual(found.energy, energy)
                self.assertIsInstance(found.spins, numpy.ndarray)
                self.assertEqual((found.spins.dtype, found.spins.shape), ("int8", (4,)))
                self.assertTrue(ising2d.check("square", 2, 2, given, found.energy, found.spins, found.loops))
        self.assertEqual(ising2d.ground("square", numpy.int64(2), numpy.uint8(2), SQUARE[3]).energy, energy)
        self.assertEqual(ising2d.costs(*SQUARE).dtype, "int64")
        self.assertEqual(numpy.asarray(ising2d.clusters(*SQUARE)).dtype, "uint32")
        self.assertEqual(Graph(2, numpy.array([[0, 1, 7]]), [[0], [1]]).ground().energy, -7)

    def test_wrong_arrays(self):
        floats, masked = numpy.array([3.0, 4, 2, -5]), numpy.ma.masked_array(SQUARE[3], [0, 1, 0, 0])
        for given, part in (
            (floats, "float64"),
            (masked, "masked"),
            (numpy.array(list("abcd")), "<U1"),
            (numpy.array(["a"], dtype="O"), "str 'a'"),
        ):
            raised, text = told(ising2d.ground, "square", 2, 2, given)
            self.assertIs(raised, TypeError)
            self.assertIn(part, text)
        raised, text = told(Graph, 2, numpy.array([[0, 1, 7.0]]), [[0], [1]])
        self.assertIs(raised, TypeError)
        self.assertIn("bonds: expected whole numbers, not an array of float64; Lattice.from_real", text)
        raised, text = told(ising2d.check, *SQUARE, -10, numpy.array([1, 1, 300, 1]), [])
        self.assertIs(raised, OverflowError)
        self.assertIn("300", text)

    def test_arrays_of_answers_are_not_changed(self):
        with self.assertRaises(ValueError):
            ising2d.ground(*SQUARE).spins[0] = -1


class TheLibrary(unittest.TestCase):
    def load(self, value, folder=None):
        """Imports the package with the library at this path."""
        code = "import ising2d; print(ising2d.ground('square', 2, 2, [3, 4, 2, -5]).energy)"
        return subprocess.run(
            [sys.executable, "-c", code],
            capture_output=True,
            text=True,
            cwd=folder,
            env=dict(
                os.environ, ISING2D_LIBRARY=value, PYTHONPATH=str(Path(ising2d.__file__).resolve().parents[1])
            ),
        )

    def test_a_relative_place(self):
        place = Path(ising2d._ffi.library()._name)
        found = self.load(place.name, place.parent)
        self.assertEqual((found.stdout, found.stderr), ("-10\n", ""))

    def told_of(self, *words):
        """The output of a binutils tool for the library."""
        if shutil.which(words[0]) is None:
            self.skipTest(f"there is no {words[0]}")
        place = ising2d._ffi.library()._name
        return subprocess.run([*words, place], capture_output=True, text=True, check=True).stdout

    def test_the_calls_of_the_header_are_seen_from_outside_and_nothing_else(self):
        header = Path(__file__).resolve().parents[1] / "c" / "ising2d.h"
        declared = set(re.findall(r"^uint8_t (ising2d_c_\w+)\(", header.read_text(), re.MULTILINE))
        seen = [line.split()[-1] for line in self.told_of("nm", "-D", "--defined-only").splitlines()]
        self.assertEqual(set(seen), declared)
        self.assertEqual(set(ising2d._ffi.FUNCTIONS), declared)

    def test_the_library_has_a_name_with_a_number(self):
        told = self.told_of("readelf", "-d")
        self.assertIn("Library soname: [libising2d.so.2]", told)
        place = Path(ising2d._ffi.library()._name)
        self.assertEqual(place.with_name("libising2d.so.2").resolve(), place.resolve())

    def test_a_place_with_nothing_or_something_else(self):
        self.assertIn(
            "LibraryMissing: ISING2D_LIBRARY names /nowhere/x.so, which does not exist",
            self.load("/nowhere/x.so").stderr,
        )
        with tempfile.NamedTemporaryFile(suffix=".so") as file:
            self.assertIn("is not a library of ising2d", self.load(file.name).stderr)


if __name__ == "__main__":
    unittest.main()
