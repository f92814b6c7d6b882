"""The functions on lattices, by kind, rows, columns and couplings."""

from __future__ import annotations

from typing import TYPE_CHECKING, Iterable, List, Literal, Optional, Union, cast, overload

from ._answers import Clusters, Cut, DomainWall, Ground, Report, Turn, Wall
from ._convert import of_networkx
from ._graphs import Graph
from ._lattices import Kind, Lattice
from ._types import NetworkxGraph, Whole
from ._verdicts import Verdict

if TYPE_CHECKING:
    from ._types import Couplings, Int64Array, Integers


def ground(
    kind: Kind,
    rows: Whole,
    cols: Whole,
    couplings: Couplings,
    loops: Optional[bool] = None,
    nest: Optional[bool] = None,
) -> Ground:
    """A ground state of a lattice, and what proves it: up to 2048 spins frustrated loops, and beyond
    that, up to 2**22 spins, a nest of regions, whose size is that of the lattice. ``loops=True`` and
    ``nest=True`` ask for either.

    ``couplings`` has one whole number for each bond, of shape ``(bonds,)``, in any unit; ``Lattice`` says
    which other shape is taken, and ``Lattice.from_real`` takes real numbers. The spins are
    an array of shape ``(rows * cols,)`` with entries 1 or -1, the least of each component 1. The
    weights of the loops sum to the energy plus the sizes of all couplings, and no bond carries more
    than twice the size of its coupling. With ``loops=False`` alone no proof is given.

    Raises ``Refusal`` if the numbers give no lattice, ``TypeError`` if they are not whole numbers,
    ``OverflowError`` if one does not fit, and ``MemoryError``, as all functions do.

    >>> ground("square", 2, 2, [3, 4, 2, -5]).energy
    -10
    """
    return Lattice(kind, rows, cols, couplings).ground(loops, nest)


@overload
def wall(kind: Kind, rows: Whole, cols: Whole, couplings: Couplings, states: Literal[False] = False) -> Wall: ...


@overload
def wall(kind: Kind, rows: Whole, cols: Whole, couplings: Couplings, states: Literal[True]) -> DomainWall: ...


@overload
def wall(kind: Kind, rows: Whole, cols: Whole, couplings: Couplings, states: bool) -> Union[Wall, DomainWall]: ...


def wall(
    kind: Kind, rows: Whole, cols: Whole, couplings: Couplings, states: bool = False
) -> Union[Wall, DomainWall]:
    """The energy of the domain wall along a cylinder: how the least energy changes if the signs of the
    couplings from the last column to the first are changed. With ``states=True`` also both ground
    states with their proofs, and the bonds between them. The other kinds are refused with the number 16.

    >>> wall("cylinder", 1, 3, [5, 7, 2]).difference
    4
    """
    return Lattice(kind, rows, cols, couplings).wall(states)


def costs(
    kind: Kind, rows: Whole, cols: Whole, couplings: Couplings, bonds: Optional[Integers] = None
) -> Int64Array:
    """The cost of flipping each bond, or each of the ``bonds``, in the unit of the couplings: an array of
    shape ``(bonds,)`` with entries of 64 bits. A bond is rigid if it costs more than 0. ``Lattice.costs``
    can be stopped and continued; for real couplings see ``Lattice.from_real`` and ``real_costs``.

    >>> costs("cylinder", 1, 3, [5, 7, 2]).tolist()
    [14, 18, 14]
    """
    return Lattice(kind, rows, cols, couplings).costs(bonds)


def clusters(kind: Kind, rows: Whole, cols: Whole, couplings: Couplings) -> Clusters:
    """The rigid clusters: for each spin the least spin of its cluster, and the sizes of the clusters.

    >>> clusters("square", 1, 3, [5, 0]).sizes
    {0: 2, 2: 1}
    """
    return Lattice(kind, rows, cols, couplings).clusters()


def ranges(kind: Kind, rows: Whole, cols: Whole, couplings: Couplings) -> List[Turn]:
    """For each bond the coupling at which the ground states change, and the side of it on which its own
    coupling lies.

    >>> ranges("cylinder", 1, 3, [5, 7, 2])[0].coupling
    -2
    """
    return Lattice(kind, rows, cols, couplings).ranges()


@overload
def maxcut(kind: Kind, rows: Whole, cols: Whole, couplings: Couplings) -> Cut: ...


@overload
def maxcut(kind: NetworkxGraph, *, attr: Optional[str] = ..., scale: Whole = ...) -> Cut: ...


def maxcut(
    kind: Union[Kind, NetworkxGraph],
    rows: Optional[Whole] = None,
    cols: Optional[Whole] = None,
    couplings: Optional[Couplings] = None,
    *,
    attr: Optional[str] = "weight",
    scale: Whole = 1,
) -> Cut:
    """The largest cut, and the loops that prove it: of a lattice with its couplings as weights, or of a
    planar graph of networkx, ``maxcut(G)``, with the attribute ``attr`` of its edges as weights, or 1
    for each edge with ``attr=None``. Weights may be below 0. ``by_node`` of the answer has the side of
    each node, and ``edge_labels`` the edges that are cut.

    >>> maxcut("square", 1, 2, [5]).weight
    5
    """
    if rows is not None and cols is not None and couplings is not None:
        return Lattice(cast(Kind, kind), rows, cols, couplings).maxcut()
    if hasattr(kind, "is_multigraph"):
        parts = of_networkx(cast(NetworkxGraph, kind), attr, scale)
        return Graph._drawn(parts, [], None, False).maxcut()
    raise TypeError("maxcut: expected a kind with rows, cols and couplings, or a graph of networkx")


def report(kind: Kind, rows: Whole, cols: Whole, couplings: Couplings) -> Report:
    """All numbers of a lattice at once; takes little longer than the costs alone.

    >>> report("square", 1, 2, [5]).energy
    -5
    """
    return Lattice(kind, rows, cols, couplings).report()


def check(
    kind: Kind,
    rows: Whole,
    cols: Whole,
    couplings: Couplings,
    energy: Whole,
    spins: Integers,
    loops: Iterable[object] = (),
    nest: Optional[Iterable[object]] = None,
) -> Verdict:
    """The verdict on a proof: whether the spins have this energy, and the loops, or the nest, show that
    no assignment has less. It trusts no solver.

    ``couplings`` as for ``ground``, the energy in their unit, ``spins`` of shape ``(rows * cols,)``
    with entries 1 or -1, and any loops: those of ``ground``, or any of which each is a
    ``Loop`` or a pair of a weight and bonds.

    >>> check("square", 2, 2, [3, 4, 2, -5], -10, [1, 1, -1, -1], [(4, (0, 1, 2, 3))]).sentence
    'the proof holds: no assignment has less energy'
    """
    return Lattice(kind, rows, cols, couplings).check(energy, spins, loops, nest)
