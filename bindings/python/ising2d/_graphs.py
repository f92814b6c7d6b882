"""General planar graphs: by a drawing, by straight lines between points, or from other packages."""

from __future__ import annotations

from typing import TYPE_CHECKING, Any, Dict, Hashable, Iterable, List, NamedTuple, Optional, Sequence, Tuple

from . import _convert, _ffi
from ._arrays import (
    in_32_bits,
    is_numpy,
    listed_of,
    of_another_kind,
    read_only,
    refuse_unordered,
    shortened,
    whole_numbers,
)
from ._errors import Member, RefusalCode, Words
from ._instances import Instance
from ._labels import Ends
from ._points import exact_places, rotation_of
from ._real import Rounded, Scale, rounded
from ._types import NetworkxGraph, Point, QuadraticModel, SparseMatrix, Whole

if TYPE_CHECKING:
    from ._types import Integers, Pairs, Points, Real, RealTriples, Reals, Triples


class _Drawn(NamedTuple):
    """A graph without its couplings, as it is handed in."""

    n: Any
    ends: Any
    rotation: Any = None
    seam: Any = ()
    labels: Any = None
    edges: Any = None
    positions: Any = None


class Graph(Instance):
    """A graph drawn on a sphere: ``n`` spins, bonds, and for each spin its darts in cyclic order.

    ``bonds`` are triples (u, v, coupling), or an array of whole numbers of shape ``(bonds, 3)``, with
    spins from 0 to ``n - 1`` and couplings in any unit. Bond k has the dart 2k, which leaves u, and the
    dart 2k + 1, which leaves v. ``rotation`` has a list of darts for each spin; without one the darts of
    each spin are in rising order, which is a drawing of a tree or a ring, and enough for ``check``.
    ``seam`` are the bonds whose signs are changed for the wall. ``labels`` are names of the spins,
    ``edges`` names of the bonds, and ``positions`` places of the spins in the plane; no answer needs
    them. The numbers are copied, and a graph is not changed afterwards.

    >>> pair = Graph(2, [(0, 1, 7)], [[0], [1]], labels=("left", "right"))
    >>> pair.ground().by_node()
    {'left': 1, 'right': 1}

    ``from_points`` takes a drawing with straight bonds, ``from_networkx`` finds a drawing of any planar
    graph, and ``from_real`` takes real couplings.
    """

    labels: Optional[Tuple[Hashable, ...]]
    edges: Optional[Tuple[Hashable, ...]]
    positions: Optional[Tuple[Point, ...]]
    is_drawn: bool

    def __init__(
        self,
        n: Whole,
        bonds: Triples,
        rotation: Optional[Iterable[Integers]] = None,
        seam: Integers = (),
        labels: Optional[Sequence[Hashable]] = None,
        edges: Optional[Sequence[Hashable]] = None,
        positions: Optional[Iterable[Sequence[float]]] = None,
    ) -> None:
        ends, couplings = _columns(bonds)
        own = Rounded(whole_numbers(couplings, "int64", "couplings of the bonds"))
        self._made(_Drawn(n, ends, rotation, seam, labels, edges, positions), own)

    def _made(self, drawn: _Drawn, own: Rounded) -> None:
        n, bonds = in_32_bits(drawn.n, "n"), len(own.couplings)
        ends = whole_numbers(drawn.ends, "uint32", "ends of the bonds")
        starts, darts = _darts(drawn.rotation, n, ends)
        self._set(
            n=n,
            couplings=read_only(own.couplings),
            scale=own.scale,
            is_drawn=drawn.rotation is not None,
            labels=_fitting(drawn.labels, n, "labels", "spins"),
            edges=_fitting(drawn.edges, bonds, "names", "bonds"),
            positions=_positions(drawn.positions, n),
            _own=_ffi.Tables(
                n,
                read_only(ends),
                read_only(whole_numbers(starts, "uint64", "starts of the rotation")),
                read_only(whole_numbers(darts, "uint32", "darts of the rotation")),
                read_only(whole_numbers(drawn.seam, "uint32", "bonds of the seam")),
            ),
        )

    def _with(self, couplings: Any, scale: Optional[Scale]) -> Graph:
        if len(couplings) != len(self.couplings):
            raise ValueError(f"there are {len(couplings)} couplings, and {len(self.couplings)} bonds")
        own = Graph.__new__(Graph)
        own._set(**self.__dict__)
        own._set(couplings=read_only(couplings), scale=scale)
        return own

    @property
    def bonds(self) -> List[Tuple[int, int, int]]:
        """The two spins and the coupling of each bond."""
        return [(u, v, j) for (u, v), j in zip(self.ends(), self.couplings.tolist())]

    @property
    def rotation(self) -> Optional[List[List[int]]]:
        """The darts of each spin in cyclic order, or None if no drawing was handed in."""
        return list(self.darts()) if self.is_drawn else None

    @property
    def seam(self) -> Tuple[int, ...]:
        """The bonds whose signs are changed for the wall."""
        return tuple(self.seam_bonds())

    def _compared(self) -> Tuple[Any, ...]:
        own = self._tables()
        arrays = own.ends, self.couplings, own.starts, own.darts, own.seam
        return (self.n, self.scale, *(values.tobytes() for values in arrays))

    def __eq__(self, other: object) -> bool:
        if not isinstance(other, Graph):
            return NotImplemented
        return self._compared() == other._compared()

    def __hash__(self) -> int:
        return hash(self._compared())

    def __repr__(self) -> str:
        if len(self.couplings) > 8:
            return f"<graph of {self.title()}>"
        own = [f"{self.n}, {self.bonds}"]
        own += [str(self.rotation)] if self.is_drawn else []
        own += [f"seam={list(self.seam)}"] if self.seam else []
        return f"Graph({', '.join(own)})"

    def title(self) -> str:
        return f"{self.n} spins and {len(self.couplings)} bonds"

    def _tables(self) -> _ffi.Tables:
        found: _ffi.Tables = self.__dict__["_own"]
        return found

    def _numbers_within(self, most: int) -> _ffi.Numbers:
        own = self._tables()
        return _ffi.Numbers(own.n, own.ends, self.couplings, own.starts, own.darts, own.seam)

    def as_json(self) -> Dict[str, object]:
        return {
            "kind": "general",
            "n": self.n,
            "bonds": [list(bond) for bond in self.bonds],
            "rotation": list(self.darts()),
            "seam": self.seam_bonds(),
        }

    def _shown(self, number: int, kept: Sequence[int]) -> Optional[str]:
        is_member = number == RefusalCode.BAD_MEMBER
        if is_member and kept[0] == Member.N:
            return str(self.n)
        if number == RefusalCode.SELF_BOND or (is_member and kept[0] == Member.BONDS):
            bonds = self.bonds
            return str(bonds[kept[-1]]) if kept[-1] < len(bonds) else None
        if number == RefusalCode.BAD_ROTATION:
            lists = list(self.darts())
            return str(lists[kept[0]]) if kept[0] < len(lists) else None
        return None

    def _words(self, number: int, kept: Sequence[int]) -> Optional[Words]:
        """What is wrong, and what to do, if no drawing was handed in."""
        if number != RefusalCode.NOT_PLANAR or self.is_drawn:
            return None
        sentence = f"the darts in rising order are no drawing in the plane: the Euler number is {kept[0]}"
        return sentence, "2; Graph.from_bonds and Graph.from_networkx find a drawing, or give the rotation"

    def node_labels(self) -> Sequence[Hashable]:
        return self.labels if self.labels is not None else range(self.n)

    def edge_labels(self) -> Sequence[Hashable]:
        if self.edges is not None:
            return self.edges
        return Ends(self.node_labels(), self._tables().ends, is_numbered=True)

    def places(self) -> Optional[List[Point]]:
        return None if self.positions is None else list(self.positions)

    @classmethod
    def from_real(
        cls,
        n: Whole,
        bonds: RealTriples,
        rotation: Optional[Iterable[Integers]] = None,
        seam: Integers = (),
        scale: Optional[Real] = None,
        labels: Optional[Sequence[Hashable]] = None,
    ) -> Graph:
        """A graph with real couplings, as ``Lattice.from_real`` rounds them: ``bonds`` are triples of two
        spins and a float, int or fraction; the rest as for ``Graph``.

        >>> ring = Graph.from_real(3, [(0, 1, 0.5), (1, 2, 0.25), (2, 0, -0.125)])
        >>> ring.ground().real.energy
        -0.625
        """
        ends, couplings = _columns(bonds, real=True)
        return cls._of(_Drawn(n, ends, rotation, seam, labels), rounded(couplings, scale))

    @classmethod
    def _of(cls, drawn: _Drawn, couplings: Rounded) -> Graph:
        own = cls.__new__(cls)
        own._made(drawn, couplings)
        return own

    @classmethod
    def from_points(
        cls,
        points: Points,
        bonds: Pairs,
        couplings: Reals,
        seam: Integers = (),
        real: bool = False,
        scale: Optional[Real] = None,
        labels: Optional[Sequence[Hashable]] = None,
    ) -> Graph:
        """A graph drawn in the plane with straight bonds: a pair of coordinates for each spin, a pair of
        spins for each bond, and a whole number for each bond, or with ``real=True`` a real one, which is
        rounded as by ``from_real``. Arrays have the shapes ``(spins, 2)``, ``(bonds, 2)`` and
        ``(bonds,)``.

        The order of the darts comes from exact tests of the coordinates as they are, without rounding,
        in time n log n. Raises ``NotPlanar`` if two bonds cross or overlap, or a point lies on another
        point or on a bond, and names them; bonds between the same two points may be parallel.

        >>> points = [(0, 0), (4, 0), (0, 4), (1, 1)]
        >>> bonds = [(0, 1), (1, 2), (2, 0), (0, 3), (1, 3), (2, 3)]
        >>> Graph.from_points(points, bonds, [-1] * 6).ground().energy
        -2
        """
        places = exact_places(points)
        pairs = _pairs_of(bonds, len(places))
        drawn = rotation_of(places, pairs)
        if real or scale is not None:
            own = rounded(couplings, scale)
        else:
            own = Rounded(whole_numbers(couplings, "int64", "couplings of the bonds"))
        if len(own.couplings) != len(pairs):
            raise ValueError(f"there are {len(own.couplings)} couplings, and {len(pairs)} bonds")
        ends = [spin for pair in pairs for spin in pair]
        # The second coordinate grows to the north; places of pictures grow to the south.
        positions = [(float(x), -float(y)) for x, y in _floats_of(points)]
        return cls._of(_Drawn(len(places), ends, drawn, seam, labels, None, positions), own)

    @classmethod
    def from_networkx(
        cls,
        graph: NetworkxGraph,
        attr: str = "J",
        seam: Iterable[Hashable] = (),
        scale: Whole = 1,
        real: bool = False,
    ) -> Graph:
        """A graph of networkx, also a multigraph, drawn by ``networkx.check_planarity``.

        ``attr`` is the attribute of an edge that is its coupling, and the energy is minus the sum of
        coupling times both spins. Times ``scale`` each must be a whole number; with ``real=True`` they
        are rounded as by ``from_real``. ``seam`` are edges, ``(u, v)`` or ``(u, v, key)``. If all nodes
        have an attribute ``pos``, it is the place where they are drawn in pictures. The nodes keep their
        labels: ``by_node`` of a ground state and ``by_edge`` of the graph give dictionaries. Raises
        ``NotPlanar`` if the graph is not planar, and ``ValueError`` if it is directed or has an edge from
        a node to itself. Where the places of the nodes draw the graph without crossings, ``from_points``
        is faster.

            graph = ising2d.Graph.from_networkx(G, attr="J")
            spins = graph.ground().by_node()
            costs = graph.by_edge(graph.costs())
        """
        parts = _convert.of_networkx(graph, attr, None if real else scale)
        chosen = _convert.seam_of(seam, parts.edges)
        return cls._drawn(parts, chosen, _convert.places_in(graph), real)

    @classmethod
    def from_bonds(
        cls, bonds: Iterable[Sequence[Any]], seam: Integers = (), scale: Whole = 1, real: bool = False
    ) -> Graph:
        """A graph by triples (u, v, coupling), with nodes of any names: as ``from_networkx``, which
        finds the drawing. The nodes have the order in which they are met, and ``seam`` are numbers of
        bonds."""
        parts = _convert.of_triples(bonds, None if real else scale, "bond")
        return cls._drawn(parts, listed_of(seam, "seam"), None, real)

    @classmethod
    def from_bqm(cls, bqm: QuadraticModel, scale: Whole = 1, real: bool = False) -> Graph:
        """A binary quadratic model as of dimod, by its ``linear`` and ``quadratic``.

        dimod's energy is the sum of bias times both spins, with a plus: so the couplings here are the
        biases with their signs changed, and energies are alike but for ``scale`` and the offset:
        ``bqm.energy(spins) == found.energy / scale + bqm.offset``. Raises ``ValueError`` if a linear
        bias is not 0, since a field is not solved, or if the model is not of spins. ``IsingSampler``
        is the same as a sampler.
        """
        return cls._drawn(_convert.of_bqm(bqm, None if real else scale), [], None, real)

    @classmethod
    def from_scipy(cls, matrix: SparseMatrix, scale: Whole = 1, real: bool = False) -> Graph:
        """A symmetric or triangular sparse matrix of couplings, with zeros on its diagonal: the entry
        (u, v) is the coupling of the bond between u and v."""
        return cls._drawn(_convert.of_scipy(matrix, None if real else scale), [], None, real)

    @classmethod
    def _drawn(cls, parts: _convert.Parts, seam: Any, positions: Any, real: bool) -> Graph:
        """The graph of these parts, drawn by networkx."""
        rotation = _convert.drawing(parts)
        values = [value for _, _, value in parts.bonds]
        own = rounded(values) if real else Rounded(whole_numbers(values, "int64", "couplings"))
        ends = [spin for u, v, _ in parts.bonds for spin in (u, v)]
        drawn = _Drawn(len(parts.labels), ends, rotation, seam, parts.labels, parts.edges, positions)
        return cls._of(drawn, own)


def _columns(bonds: Any, real: bool = False) -> Tuple[Any, Any]:
    """The ends of all bonds, two for each, and the couplings."""
    refuse_unordered(bonds, "bonds")
    if is_numpy(bonds):
        if bonds.dtype.kind not in ("iuOf" if real else "iuO"):
            raise of_another_kind(bonds.dtype, "bonds")
        if bonds.size and (bonds.ndim != 2 or bonds.shape[1] != 3):
            raise TypeError(f"bonds: expected an array of shape (bonds, 3), not {bonds.shape}")
        rows = bonds.reshape(-1, 3)
        return (_whole_floats(rows[:, :2]) if real else rows[:, :2]).ravel(), rows[:, 2]
    ends: List[Any] = []
    couplings: List[Any] = []
    for bond in listed_of(bonds, "bonds"):
        if not hasattr(bond, "__len__") or isinstance(bond, (str, bytes, dict, set)) or len(bond) != 3:
            raise TypeError(f"bonds: expected two spins and a coupling, not {shortened(bond)}")
        u, v, coupling = bond
        ends += (u, v)
        couplings.append(coupling)
    return ends, couplings


def _whole_floats(ends: Any) -> Any:
    """Spins that stand in an array of floats."""
    if ends.dtype.kind != "f":
        return ends
    found = ends.astype("int64")
    if not (found == ends).all():
        raise TypeError("bonds: the first two columns are spins, and there are other numbers")
    return found


def _pairs_of(bonds: Any, count: int) -> List[Tuple[int, int]]:
    """The bonds between points, as pairs of Python's numbers."""
    refuse_unordered(bonds, "bonds")
    if is_numpy(bonds):
        if bonds.dtype.kind not in "iu":
            raise of_another_kind(bonds.dtype, "bonds")
        if bonds.size and (bonds.ndim != 2 or bonds.shape[1] != 2):
            raise TypeError(f"bonds: expected an array of shape (bonds, 2), not {bonds.shape}")
        bonds = bonds.reshape(-1, 2).tolist()
    found = []
    for k, bond in enumerate(listed_of(bonds, "bonds")):
        if not hasattr(bond, "__len__") or isinstance(bond, (str, bytes, dict, set)) or len(bond) != 2:
            raise TypeError(f"bonds: expected two spins, not {shortened(bond)}")
        u, v = (in_32_bits(spin, "bonds") for spin in bond)
        if max(u, v) >= count or u == v:
            raise ValueError(f"bond {k} is {(u, v)} (allowed: two points from 0 to {count - 1})")
        found.append((u, v))
    return found


def _floats_of(points: Any) -> List[Any]:
    return listed_of(points.tolist() if is_numpy(points) else points, "points")


def _fitting(names: Any, count: int, what: str, of: str) -> Optional[Tuple[Hashable, ...]]:
    """Names, if there are as many as are wanted."""
    if names is None:
        return None
    listed = tuple(listed_of(names, what))
    if len(listed) != count:
        raise ValueError(f"there are {len(listed)} {what}, and {count} {of}")
    _refuse_twice(listed, what, of)
    return listed


def _refuse_twice(names: Tuple[Any, ...], what: str, of: str) -> None:
    """Raises ``ValueError`` for a name that two have, since values by names would lose one of them."""
    seen = set()
    for name in names:
        try:
            is_known = name in seen
        except TypeError:
            raise TypeError(f"{what}: {shortened(name)} can be no name, since it cannot be hashed") from None
        if is_known:
            raise ValueError(f"{what}: two {of} have the name {shortened(name)}")
        seen.add(name)


def _positions(positions: Any, count: int) -> Optional[Tuple[Point, ...]]:
    """Places of the spins, if there is one for each."""
    if positions is None:
        return None
    try:
        found = tuple((float(x), float(y)) for x, y in positions)
    except (TypeError, ValueError):
        raise TypeError("positions: expected two numbers for each spin") from None
    if len(found) != count:
        raise ValueError(f"there are {len(found)} positions, and {count} spins")
    return found


def _darts(rotation: Any, n: int, ends: Any) -> Tuple[List[int], List[Any]]:
    """The starts of each spin's darts, and the darts."""
    lists = _rising(n, ends.tolist()) if rotation is None else _lists(rotation)
    starts: List[int] = [0]
    darts: List[Any] = []
    for own in lists:
        darts.extend(own)
        starts.append(len(darts))
    return starts, darts


def _lists(rotation: Any) -> List[List[Any]]:
    refuse_unordered(rotation, "rotation")
    found = []
    for own in listed_of(rotation, "rotation"):
        refuse_unordered(own, "darts of a spin")
        found.append(listed_of(own, "darts of a spin"))
    return found


def _rising(n: int, ends: List[int]) -> List[List[int]]:
    """The darts of each spin in rising order. Darts of no spin are left out, and refused as the ends."""
    lists: List[List[int]] = [[] for _ in range(min(n, _ffi.MOST_SPINS))]
    for dart, spin in enumerate(ends):
        if spin < len(lists):
            lists[spin].append(dart)
    return lists
