"""The module over the built library: worked examples, random instances beside runs of the program's
text form, and wrong sizes and values on each argument."""

import os
import random
import unittest
from array import array
from pathlib import Path

import ising2d
from ising2d import Loop, Refusal

KINDS = ("square", "triangular", "hexagonal", "cylinder")

EXAMPLES = Path(__file__).resolve().parents[2] / "examples"
CASES = int(os.environ.get("CASES", "2000"))

SQUARE = ("square", 2, 2, [3, 4, 2, -5])


def bond_count(kind, rows, cols):
    """The number of bonds of a lattice, counted one by one."""
    count = 0
    for row in range(rows):
        for col in range(cols):
            count += kind == "cylinder" or col + 1 < cols
            south = row + 1 < rows
            count += south and (kind != "hexagonal" or (row + col) % 2 == 0)
            count += kind == "triangular" and south and col + 1 < cols
    return count


# The steps to the neighbours of a spin, in the order of its darts: in rows and in columns.
STEPS = ((0, 1), (-1, 0), (-1, -1), (0, -1), (1, 0), (1, 1))


def ends(kind, rows, cols):
    """The two spins of each bond of a lattice, in the order of the bonds."""
    found = []
    for r in range(rows):
        found += [(r * cols + c, r * cols + (c + 1) % cols) for c in range(cols - (kind != "cylinder"))]
    for r in range(rows - 1):
        south = [(r * cols + c, (r + 1) * cols + c) for c in range(cols)]
        found += [bond for c, bond in enumerate(south) if kind != "hexagonal" or (r + c) % 2 == 0]
    if kind == "triangular":
        for r in range(rows - 1):
            found += [(r * cols + c, (r + 1) * cols + c + 1) for c in range(cols - 1)]
    return found


def rotation(bonds, rows, cols):
    """The darts of each spin of a lattice in their order."""
    darts = {}
    for k, (u, v) in enumerate(bonds):
        (r, c), (row, col) = divmod(u, cols), divmod(v, cols)
        place = STEPS.index((row - r, 1 if row == r else col - c))
        darts[r, c, place], darts[row, col, (place + 3) % 6] = 2 * k, 2 * k + 1
    return [[darts[r, c, i] for i in range(6) if (r, c, i) in darts] for r in range(rows) for c in range(cols)]


def pairs(given):
    """The two spins of each bond of an instance, as pairs of Python."""
    return [tuple(map(int, pair)) for pair in given.ends()]


def text_of(kind, rows, cols, couplings):
    """The instance as a text."""
    records = [f"{kind},{rows},{cols}", ",".join(map(str, couplings)), "end", ""]
    return "\n".join(record for record in records[:2] if record) + "\nend\n"


def rows_of(command, instance):
    """The rows that the program prints for the text form."""
    found = ising2d.run([command], text_of(*instance))
    assert found.status == 0, found
    return [line.split(",") for line in found.text.splitlines()]


def drawn(source):
    """A random instance."""
    kind = source.choice(("square", "triangular", "hexagonal", "cylinder"))
    rows, cols = source.randint(1, 5), source.randint(3, 6)
    size = source.choice((1, 2, 10, 2**30))
    count = bond_count(kind, rows, cols)
    return kind, rows, cols, [source.randint(-size, size) for _ in range(count)]


def verdict_by_text(instance, stated):
    """The program's verdict on the text form, or the refusal's number and kept numbers."""
    energy, spins, loops = stated
    records = [f"energy,{energy}", ",".join(["spins", *map(str, spins)])]
    records += [",".join(map(str, ("loop", loop.weight, *loop.bonds))) for loop in loops]
    found = ising2d.run(["check"], instance + "\n".join(records + ["end", ""]))
    numbers = [int(field) for field in found.text.strip().split(",")[1:]]
    assert found.status in (0, 3), found
    return ising2d.Verdict(numbers[0], tuple(numbers[1:])) if numbers else ising2d.Verdict(0, ())


def forged(source, found):
    """A proof, perhaps changed in one place."""
    energy, spins, loops = found.energy, list(found.spins), list(found.loops)
    change = source.randrange(9)
    if change == 0:
        energy += source.choice((-2, 1, 2))
    elif change == 1:
        spins[source.randrange(len(spins))] *= -1
    elif change == 2:
        spins = spins[:-1] if source.random() < 0.5 else spins + [1]
    elif change == 3 and loops:
        loops.pop(source.randrange(len(loops)))
    elif loops and change < 8:
        i = source.randrange(len(loops))
        loop = loops[i]
        bonds = list(loop.bonds)
        if change == 4:
            loops[i] = Loop(loop.weight + source.choice((-3, -1, 1, 2**40)), loop.bonds)
        elif change == 5:
            loops[i] = Loop(loop.weight, tuple(bonds[:-1]))
        elif change == 6:
            loops[i] = Loop(
                loop.weight, tuple(bonds + [source.choice((bonds[0], bonds[-1] + 1, 2**32 - 1))])
            )
        else:
            loops[i] = Loop(loop.weight, ())
    return energy, spins, loops


def is_right_too(command, given, text, stored):
    """Whether another text of a ground state than the stored one has its energy, and proves it."""
    same = text.partition("\n")[0] == stored.partition("\n")[0]
    return command == "ground" and same and ising2d.run(["check"], given + text.encode()).text == "yes\n"


class WorkedExamples(unittest.TestCase):
    def test_each_example_is_answered_as_written(self):
        seen = 0
        for answer in sorted(EXAMPLES.glob("*/*.answer")):
            given = answer.with_suffix(".txt")
            if not given.exists() or answer.parent.name not in {
                "energy",
                "ground",
                "wall",
                "bonds",
                "clusters",
                "report",
                "check",
            }:
                continue
            with self.subTest(example=answer.name):
                command, stored = answer.parent.name, answer.read_text()
                found = ising2d.run([command], given.read_bytes())
                if not is_right_too(command, given.read_bytes(), found.text, stored):
                    self.assertEqual(found.text, stored)
                seen += 1
        self.assertGreater(seen, 5)

    def test_the_square_of_four_spins(self):
        found = ising2d.ground(*SQUARE)
        self.assertEqual(found.energy, -10)
        self.assertEqual(list(found.spins), [1, 1, -1, -1])
        self.assertEqual(sum(loop.weight for loop in found.loops), 4)
        self.assertEqual({loop.bonds for loop in found.loops}, {(0, 1, 2, 3)})
        self.assertTrue(ising2d.check(*SQUARE, found.energy, found.spins, found.loops))
        verdict = ising2d.check(*SQUARE, -9, found.spins, found.loops)
        self.assertEqual((verdict.number, verdict.kept), (2, (-10,)))

    def test_a_ring(self):
        ring = ("cylinder", 1, 3, [5, 7, 2])
        self.assertEqual(ising2d.wall(*ring), ising2d.Wall(-14, -10, 4))
        self.assertEqual(list(ising2d.costs(*ring)), [14, 18, 14])
        self.assertEqual(list(ising2d.clusters(*ring)), [0, 0, 0])


class RandomInstances(unittest.TestCase):
    def test_numbers_and_text_agree(self):
        source = random.Random(1)
        for case in range(CASES):
            instance = drawn(source)
            with self.subTest(case=case, instance=instance):
                self.compare(instance)

    def compare(self, instance):
        rows = rows_of("ground", instance)
        found = ising2d.ground(*instance)
        self.assertEqual(found.energy, int(rows[0][1]))
        self.assertTrue(ising2d.check(*instance, found.energy, found.spins, found.loops))
        self.assertEqual(ising2d.ground(*instance, loops=False).energy, found.energy)
        costs = [int(row[2]) for row in rows_of("bonds", instance)[:-1]]
        self.assertEqual(list(ising2d.costs(*instance)), costs)
        names = [int(row[2]) for row in rows_of("clusters", instance)[:-1]]
        self.assertEqual(list(ising2d.clusters(*instance)), names)
        if instance[0] == "cylinder":
            energies = [int(row[1]) for row in rows_of("wall", instance)[:3]]
            self.assertEqual(ising2d.wall(*instance), ising2d.Wall(*energies))

    def test_forged_proofs_are_judged_as_by_text(self):
        source = random.Random(2)
        for case in range(CASES):
            instance = drawn(source)
            found = ising2d.ground(*instance)
            stated = forged(source, found)
            with self.subTest(case=case, instance=instance, stated=stated):
                self.assertEqual(
                    ising2d.check(*instance, *stated), verdict_by_text(text_of(*instance), stated)
                )


class WrongArguments(unittest.TestCase):
    CALLS = (ising2d.ground, ising2d.wall, ising2d.costs, ising2d.clusters)

    def refused(self, number, kept, *instance):
        for call in self.CALLS:
            with self.subTest(call=call.__name__), self.assertRaises(Refusal) as caught:
                call(*instance)
            self.assertEqual((caught.exception.number, caught.exception.kept), (number, kept))

    def test_each_argument(self):
        self.refused(19, (1, 0), "kagome", 2, 2, [3, 4, 2, -5])
        self.refused(19, (1, 0), 4, 2, 2, [3, 4, 2, -5])
        self.refused(19, (3, 0), "square", 0, 2, [])
        self.refused(19, (4, 0), "square", 2, 0, [])
        self.refused(19, (4, 0), "hexagonal", 2, 1, [1])
        self.refused(19, (4, 0), "cylinder", 2, 2, [1])
        with self.assertRaises(Refusal) as caught:
            ising2d.costs("square", 128, 129, [1] * 32767)
        self.assertEqual((caught.exception.number, caught.exception.kept), (7, (16512,)))
        self.refused(7, (4196352,), "square", 2049, 2048, [])
        self.refused(7, ((2**32 - 1) ** 2,), "square", 2**32 - 1, 2**32 - 1, [])
        self.refused(6, (3, 4), "square", 2, 2, [3, 4, 2])
        self.refused(6, (5, 4), "square", 2, 2, [3, 4, 2, -5, 1])
        self.refused(19, (6, 3), "square", 2, 2, [3, 4, 2, -(2**63)])
        self.refused(13, (2**63 + 2,), "square", 2, 2, [2**63 - 1, 1, 1, 1])

    def test_within_the_limits_the_couplings_are_counted(self):
        for call, number, kept in (
            (ising2d.costs, 6, (1, 5890)),
            (ising2d.clusters, 6, (1, 5890)),
            (ising2d.ground, 6, (1, 5890)),
            (ising2d.wall, 6, (1, 5890)),
        ):
            with self.assertRaises(Refusal) as caught:
                call("square", 50, 60, [1])
            self.assertEqual((caught.exception.number, caught.exception.kept), (number, kept))

    def test_a_lattice_is_not_changed(self):
        lattice = ising2d.Lattice(*SQUARE)
        for name in ("couplings", "rows", "kind", "n", "another"):
            with self.assertRaises(AttributeError):
                setattr(lattice, name, 3)
        other = lattice.with_couplings([3, 4, 2, 5])
        self.assertEqual((other.ground().energy, lattice.ground().energy), (-14, -10))
        for couplings, number, kept in (([3, 4, 2, -(2**63)], 19, (6, 3)), ([3, 4, 2], 6, (3, 4))):
            with self.assertRaises(Refusal) as caught:
                lattice.with_couplings(couplings).ground()
            self.assertEqual((caught.exception.number, caught.exception.kept), (number, kept))

    def test_the_tables_of_each_kind(self):
        """The library's tables are those that the package lists, and give the lattice as a graph."""
        for kind, rows, cols in (
            *((kind, rows, cols) for kind in KINDS for rows in (1, 2, 3, 4) for cols in (3, 4, 5)),
            ("square", 1, 1),
            ("hexagonal", 5, 2),
            ("triangular", 1, 2),
        ):
            bonds = len(ends(kind, rows, cols))
            lattice = ising2d.Lattice(kind, rows, cols, [(7 * k) % 11 - 5 for k in range(bonds)])
            found = lattice._numbers_within(rows * cols)
            starts, darts = list(found.starts), list(found.darts)
            with self.subTest(kind=kind, rows=rows, cols=cols):
                listed = ends(kind, rows, cols)
                self.assertEqual(pairs(lattice), listed)
                self.assertEqual(list(zip(found.ends[::2], found.ends[1::2])), listed)
                self.assertEqual([darts[a:b] for a, b in zip(starts, starts[1:])], lattice.darts())
                self.assertEqual(lattice.darts(), rotation(listed, rows, cols))
                self.assertEqual(list(found.seam), lattice.seam_bonds())
                seam = [r * cols + cols - 1 for r in range(rows)] if kind == "cylinder" else []
                self.assertEqual(lattice.seam_bonds(), seam)
            if rows * cols > 1:
                with self.assertRaises(Refusal) as caught:
                    lattice._numbers_within(rows * cols - 1)
                self.assertEqual((caught.exception.number, caught.exception.kept), (7, (rows * cols,)))

    def test_each_argument_of_a_proof(self):
        spins, loops = [1, 1, -1, -1], [Loop(2, (0, 1, 2, 3))] * 2

        def refused(number, kept, *stated):
            with self.assertRaises(Refusal) as caught:
                ising2d.check(*SQUARE, *stated)
            self.assertEqual((caught.exception.number, caught.exception.kept), (number, kept))

        refused(19, (10, 2), -10, [1, 1, 0, 2], loops)
        refused(19, (10, 0), -10, [-128, 1, 0, 2], loops)
        weights, starts, bonds = [2, 2], [0, 4, 8], [0, 1, 2, 3] * 2

        def given(weights, starts, bonds):
            return ising2d.Loops(array("q", weights), array("Q", starts), array("I", bonds))

        self.assertTrue(ising2d.check(*SQUARE, -10, spins, given(weights, starts, bonds)))
        refused(19, (11, 0), -10, spins, given(weights, starts[:-1], bonds))
        refused(19, (11, 0), -10, spins, given(weights[:-1], starts, bonds))
        refused(19, (11, 0), -10, spins, given([], [], []))
        refused(19, (11, 0), -10, spins, given(weights, [1, 4, 8], bonds))
        refused(19, (11, 2), -10, spins, given(weights, [0, 9, 8], bonds))
        refused(19, (11, 2), -10, spins, given(weights, [0, 2**64 - 1, 8], bonds))
        refused(19, (11, 2), -10, spins, given(weights, starts, bonds[:-1]))
        # A sum of couplings that no solver takes is judged.
        verdict = ising2d.check("square", 2, 2, [2**63 - 1, 1, 1, 1], 0, [1] * 4, [])
        self.assertEqual((verdict.number, verdict.kept), (2, (-(2**63) - 2,)))
        with self.assertRaises(OverflowError):
            ising2d.check(*SQUARE, 2**63, spins, loops)
        with self.assertRaises(OverflowError):
            ising2d.check(*SQUARE, -10, [300, 1, 1, 1], loops)
        with self.assertRaises(TypeError):
            ising2d.check(*SQUARE, -10, [1.0, 1, 1, 1], loops)

    def test_a_wall_without_a_seam(self):
        with self.assertRaises(Refusal) as caught:
            ising2d.wall(*SQUARE)
        self.assertEqual(caught.exception.number, 16)

    def test_numbers_that_do_not_cross(self):
        with self.assertRaises(OverflowError):
            ising2d.ground("square", 2, 2, [3, 4, 2, 2**63])
        with self.assertRaises(OverflowError):
            ising2d.ground("square", 2**32, 2, [])
        with self.assertRaises(TypeError):
            ising2d.ground("square", 2, 2, [0.5, 1, 1, 1])

    def test_words(self):
        self.assertEqual(ising2d.run([]).status, 2)
        self.assertEqual(ising2d.run(["ground", "x"]).text, "usage\n")
        self.assertEqual(ising2d.run(["gen", "é", "1", "square", "2", "2"]).text, "refused,17\n")
        self.assertEqual(ising2d.run(["gen", "one", "1", "square", "1", "2"]).text, "square,1,2\n1\nend\n")
        with self.assertRaises(ValueError):
            ising2d.run(["ground\0"])


if __name__ == "__main__":
    unittest.main()
