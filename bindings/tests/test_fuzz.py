"""Random wrong calls: each is answered, or raises one of the stated classes. By hand, ten thousand:

    CALLS=10000 python3 -m unittest test_fuzz
"""

import os
import random
import unittest
from array import array

import ising2d
from ising2d import Graph, Lattice, Loop, Loops, Network

try:
    import numpy
except ImportError:
    numpy = None

CALLS = int(os.environ.get("CALLS", "400"))
STATED = (TypeError, ValueError, OverflowError, MemoryError, ising2d.NoProofFound, ising2d.Stopped)


class Odd:
    """An opaque value."""

    def __index__(self):
        return 3


class Liar:
    """Looks like a list but is none."""

    mask = True

    def __len__(self):
        return 3

    def __iter__(self):
        return iter([1, "x", None])


VALUES = [
    None,
    True,
    0,
    1,
    2,
    3,
    -1,
    7,
    255,
    256,
    2**31,
    2**32 - 1,
    2**32,
    2**44,
    2**63 - 1,
    2**63,
    -(2**63),
    2**64,
    10**30,
    0.0,
    1.5,
    float("nan"),
    float("inf"),
    1j,
    "",
    "square",
    "cylinder",
    "hexagonal",
    "triangular",
    "general",
    "pm",
    "one",
    "é",
    "\0",
    "\ud800",
    b"",
    b"square",
    bytearray(b"ab"),
    memoryview(b"abc"),
    (),
    [],
    {},
    set(),
    frozenset([1]),
    {0: 1},
    [1],
    [1, 2, 3],
    [3, 4, 2, -5],
    (1, 1, -1, -1),
    [[1]],
    [(0, 1, 5)],
    [(0, 1, 5), (1, 0, 2**63)],
    [(0, 0, 1)],
    [[0], [1]],
    [[1], [0]],
    [[0, 0], [1]],
    [None],
    [1.0],
    ["1"],
    [[1, 2], [3]],
    [(2, (0, 1, 2, 3))],
    [(2, [0, -1])],
    [Loop(2, (0, 1))],
    range(4),
    range(10**6),
    array("q", [3, 4, 2, -5]),
    array("d", [1.0]),
    array("I", []),
    array("b", [1, 1]),
    object(),
    Odd(),
    Liar(),
    int,
    len,
    iter([1, 2]),
    Loops([1], [0, 1], [2]),
    Loops(array("q", [1]), array("Q", [0, 5]), array("I", [2])),
    Lattice("square", 2, 2, [3, 4, 2, -5]),
    Graph(2, [(0, 1, 7)], [[0], [1]]),
    Graph(3, [(0, 1, 7)], [[0], [9]]),
    Graph(2**31, [], []),
    Exception,
    Ellipsis,
]
if numpy is not None:
    VALUES += [
        numpy.array([3, 4, 2, -5]),
        numpy.array([[0, 1, 7]]),
        numpy.array([1.5]),
        numpy.array(3),
        numpy.zeros((2, 2, 2), "int8"),
        numpy.array([], "O"),
        numpy.array(["x"]),
        numpy.ma.masked_array([1, 2], [0, 1]),
        numpy.int64(4),
        numpy.float32(2),
        numpy.array([2**64 - 1], "uint64"),
        numpy.array([(1, 2)], dtype=[("a", "i4"), ("b", "i4")]),
        numpy.datetime64("2020-01-01"),
        numpy.matrix([[1, 2], [3, 4]]),
        numpy.array([None]),
    ]

LATTICE = ("square", 2, 2, [3, 4, 2, -5])
RING = ("cylinder", 1, 3, [5, 7, 2])
PAIR = (2, [(0, 1, 7)], [[0], [1]], [0])
CLASSES = ("ground", "wall", "costs", "clusters", "ranges", "maxcut", "report")


def lattice_call(name):
    return lambda *arguments: getattr(ising2d, name)(*arguments)


def graph_call(name):
    return lambda *arguments: getattr(Graph(*arguments), name)()


CALLED = [(lattice_call(name), RING) for name in CLASSES] + [(graph_call(name), PAIR) for name in CLASSES]
CALLED += [
    (ising2d.check, (*LATTICE, -10, [1, 1, -1, -1], [(4, (0, 1, 2, 3))])),
    (lambda *proof: Graph(*PAIR).check(*proof), (-7, [1, 1], [])),
    (lambda *arguments: Graph(*arguments).wall(states=True), PAIR),
    (lambda *arguments: Graph(*arguments).ground().svg(places=[(0, 0), (1, 0)]), PAIR),
    (lambda *arguments: Graph(*arguments).ground().by_node(), (*PAIR, "ab", ["e"])),
    (lambda *arguments: hash(Graph(*arguments)), PAIR),
    (lambda first, second: first == second, (Graph(*PAIR), Lattice(*LATTICE))),
    (ising2d.wall, (*RING, True)),
    (ising2d.tjoin, (3, [(0, 1, 2), (1, 2, 3), (0, 2, 4)], [0, 2])),
    (ising2d.postman, (2, [(0, 1, 5)])),
    (lambda *arguments: Network(*arguments).postman("b").node_labels(), (2, [(0, 1, 5)], "ab", ["e"])),
    (lambda edges, scale, own: Network.from_edges(edges, scale).tjoin(own).check(), ([("a", "b", 5)], 1, ["a", "b"])),
    (Network.from_networkx, (None, "weight", 1)),
    (ising2d.draw, ("pm", 1, "square", 2, 2)),
    (ising2d.sample, ("pm", 1, 2, 2)),
    (ising2d.ensemble, ("pm", 1, 2, 3, 2)),
    (ising2d.widths, ("pm", 1, 2, 3, 2)),
    (ising2d.draw, ("diluted", 1, "square", 2, 2, 0.5)),
    (ising2d.ensemble, ("gaussian", 1, 2, 3, 2)),
    (lambda *given: Lattice.from_real(*given).ground().real, ("square", 2, 2, [0.5, 1.5, -1, 2.25], 4)),
    (lambda *given: Lattice.from_real(*given).real_costs(), ("cylinder", 1, 3, [0.1, 0.2, -0.3])),
    (lambda *given: Graph.from_real(*given).ground(), (2, [(0, 1, 0.5)], [[0], [1]], (), 2)),
    (
        lambda *given: Graph.from_points(*given).ground(),
        ([(0, 0), (1, 0), (0, 1)], [(0, 1), (1, 2), (2, 0)], [1, -1, 2], (), False, None, "abc"),
    ),
    (lambda *given: ising2d.IsingSampler().sample_ising(*given), ({"a": 0}, {("a", "b"): 1})),
    (lambda couplings: Lattice(*LATTICE).with_couplings(couplings).ground(), ([1, 2, 3, 4],)),
    (lambda *given: Lattice(*LATTICE).with_real(*given).ground(), ([1, 2.5, 3, 4], 2)),
    (ising2d.run, (["energy"], "square,1,1\nend\n")),
    (ising2d.read, ("square,1,1\nend\n",)),
    (ising2d.svg, (ising2d.ground(*LATTICE), None, 3, 20.0, True)),
    (lambda *items: ising2d.ground_many(items, threads=2), (LATTICE, Lattice(*LATTICE))),
    (lambda many, threads: ising2d.ground_many(many, threads=threads), ([LATTICE], 2)),
    (Graph.from_networkx, (None, "J", (), 1)),
    (Graph.from_bqm, (None, 1)),
    (Graph.from_scipy, (None, 1)),
    (lambda *arrays: list(Loops(*arrays)), (array("q", [1]), array("Q", [0, 1]), array("I", [2]))),
    (lambda spins: Lattice(*LATTICE).energy_of(spins), ([1, 1, 1, 1],)),
    (lambda values: Lattice(*LATTICE).by_node(values), ([1, 1, 1, 1],)),
    (lambda *given: Lattice(*LATTICE).costs(*given), ([0, 2], None, False, 2)),
    (lambda *given: Lattice(*LATTICE).costs([1], *given), (([-1, 0, 2, -1], [-1, 9, 9, -1]), False, 1)),
    (lambda *given: Lattice(*LATTICE).ranges(*given), ([0, 2], False, 2)),
    (lambda *given: Lattice(*LATTICE).droplet(*given), (1, None)),
    (ising2d.ensemble, ("gaussian", 1, 2, 3, 2, None, ising2d.Ensemble.of([5]), False, 1)),
    (ising2d.Ensemble.of, ([5, 3],)),
]
if numpy is not None:
    try:
        import networkx  # noqa: F401

        CALLED.append((Graph.from_bonds, ([("a", "b", 3)], (), 1)))
    except ImportError:
        pass


def shown(given):
    """The arguments in a text, as far as they have one."""
    try:
        return repr(given)[:500]
    except Exception:
        return [type(value).__name__ for value in given]


def spoiled(source, arguments):
    """The arguments, one or more of them replaced, or an entry inside of one, or their number changed."""
    given = list(arguments)
    for _ in range(source.choice((1, 1, 2, 3))):
        place = source.randrange(len(given)) if given else 0
        change = source.random()
        if change < 0.7 and given:
            given[place] = source.choice(VALUES)
        elif change < 0.9 and given and isinstance(given[place], (list, tuple)) and given[place]:
            inner = list(given[place])
            inner[source.randrange(len(inner))] = source.choice(VALUES)
            given[place] = inner
        elif change < 0.95:
            given.insert(place, source.choice(VALUES))
        elif given:
            given.pop(place)
    return given


class WrongCalls(unittest.TestCase):
    def test_each_raises_a_stated_class_or_is_answered(self):
        source = random.Random(int(os.environ.get("SEED", "31")))
        answered = 0
        for case in range(CALLS):
            call, arguments = source.choice(CALLED)
            given = spoiled(source, arguments)
            with self.subTest(case=case, call=call, given=shown(given)):
                try:
                    call(*given)
                    answered += 1
                except STATED as fault:
                    self.assertTrue(str(fault) or isinstance(fault, MemoryError))
        self.assertLess(answered, CALLS // 2)


if __name__ == "__main__":
    unittest.main()
