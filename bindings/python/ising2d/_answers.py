"""Answers, each with names for its numbers. They are equal if all their numbers are, and know the model that
they are of."""

from __future__ import annotations

from collections import Counter
from dataclasses import dataclass, field
from functools import cached_property
from typing import (
    TYPE_CHECKING,
    Any,
    Dict,
    Hashable,
    Iterable,
    Iterator,
    List,
    Mapping,
    NamedTuple,
    Optional,
    Protocol,
    Sequence,
    Tuple,
    TypeVar,
    Union,
    overload,
)

from ._arrays import as_array, is_numpy, numpy, read_only
from ._judging import Judge
from ._labels import ByLabel, Listed
from ._loops import Loop
from ._model import Model
from ._nests import Nest
from ._real import Bounded, RealGround, RealWall, Scale
from ._svg import LARGEST_SHOWN, picture_of_clusters, picture_of_ground, picture_of_wall
from ._verdicts import Answer, Verdict

if TYPE_CHECKING:
    from ._types import Int8Array, Int64Array, Places, UInt32Array

Source = TypeVar("Source")


def _known(source: Optional[Source], what: str) -> Source:
    """What an answer is of, where it is known."""
    if source is None:
        raise ValueError(f"this answer was made without its {what}")
    return source


def _proof_text(loops: Sequence[Loop], nest: Optional[Nest]) -> str:
    """What proves an answer."""
    if nest is not None:
        return f"proved by a nest of {len(nest.radii)} regions"
    return f"proved by {len(loops)} loops"


def _is_shown(model: Optional[Model]) -> bool:
    """Whether a notebook draws an answer by itself: a small one whose spins have places."""
    return model is not None and model.n <= LARGEST_SHOWN and model.has_places()


@dataclass(frozen=True, eq=False, repr=False)
class Ground(Answer):
    """A ground state: its energy, in the unit of the couplings; an array of shape ``(spins,)`` with 1
    or -1 for each spin; and the loops that prove it, a sequence of ``Loop``, or the ``nest`` that does, a
    ``Nest``. ``instance`` is the instance that was solved; with real couplings ``real`` is the
    energy in their unit.

    >>> import ising2d
    >>> found = ising2d.ground("square", 2, 2, [3, 4, 2, -5])
    >>> found.energy, found.spins.tolist(), found.broken()
    (-10, [1, 1, -1, -1], [2])
    >>> bool(found.check())
    True
    >>> found
    <ground state of a square lattice of 2 by 2: energy -10, proved by 2 loops>
    """

    energy: int
    spins: Int8Array
    loops: Sequence[Loop]
    instance: Optional[Model] = field(default=None, compare=False)
    nest: Optional[Nest] = field(default=None, compare=False)

    def _known(self) -> Model:
        return _known(self.instance, "instance")

    @property
    def real(self) -> RealGround:
        """The energy in the unit of the real couplings, and how far it can be from their least energy."""
        scale = _known(self._known().scale, "real couplings")
        energy = scale.value(self.energy)
        return RealGround(energy.value, energy.error, scale.value(0, 2).error)

    def check(self) -> Verdict:
        """The verdict on this proof, by the checker, which trusts no solver: on the nest if there is
        one, and else on the loops."""
        return self._known().check(self.energy, self.spins, self.loops, self.nest)

    def broken(self) -> List[int]:
        """The bonds that are not satisfied: coupling times both spins is below 0."""
        return self._known().broken_by(self.spins)

    def by_node(self) -> Mapping[Hashable, int]:
        """The spin of each node by its label; on a lattice by row and column. It is equal to a dictionary,
        and is computed on access; ``dict`` of it is a dictionary."""
        return self._known().by_node(self.spins)

    def svg(
        self,
        places: Optional[Places] = None,
        loops: int = 3,
        cell: Optional[float] = None,
        legend: bool = True,
    ) -> str:
        """A picture of the ground state, as SVG: ``ising2d.svg`` says what the arguments are."""
        return picture_of_ground(self._known(), self.spins, self.loops, places, loops, cell, legend)

    def _repr_svg_(self) -> Optional[str]:
        return self.svg() if _is_shown(self.instance) else None

    def __repr__(self) -> str:
        of = f"{len(self.spins)} spins" if self.instance is None else self.instance.title()
        return f"<ground state of {of}: energy {self._energy_text()}, {self._proof_text()}>"

    def _energy_text(self) -> str:
        if self.instance is None or self.instance.scale is None:
            return str(self.energy)
        real = self.real
        return f"{real.energy} up to {real.error:.3g} ({self.energy} as a whole number)"

    def _proof_text(self) -> str:
        has_none = self.nest is None and not len(self.loops) and self.instance is not None
        return "without a proof" if has_none and self.broken() else _proof_text(self.loops, self.nest)


@dataclass(frozen=True, eq=False, repr=False)
class Wall(Answer):
    """The least energy, the least energy with the signs of the seam changed, and the second minus the
    first, in the unit of the couplings; with real couplings ``real`` has them in their unit.

    >>> import ising2d
    >>> ising2d.wall("cylinder", 1, 3, [5, 7, 2])
    Wall(periodic=-14, antiperiodic=-10, difference=4)
    """

    periodic: int
    antiperiodic: int
    difference: int
    instance: Optional[Model] = field(default=None, compare=False)

    @property
    def real(self) -> RealWall:
        """The energies in the unit of the real couplings, and how far they can be wrong."""
        return _real_wall(self, self.instance)


def _real_wall(wall: Union[Wall, DomainWall], model: Optional[Model]) -> RealWall:
    scale = _known(_known(model, "instance").scale, "real couplings")
    first, second = scale.value(wall.periodic), scale.value(wall.antiperiodic)
    between = scale.value(wall.difference, 2)
    error = max(first.error, second.error)
    return RealWall(first.value, second.value, between.value, error, between.error)


@dataclass(frozen=True, eq=False, repr=False)
class DomainWall(Answer):
    """A wall with its states: ``ground`` is a ground state, ``turned`` one with the signs of the seam
    changed, each with its proof, and ``bonds`` are the numbers of the bonds between the two: those that
    one of them satisfies and the other, with its signs, breaks. Coupling times both spins of
    ``ground``, summed over these bonds, is half the difference.

    If there are several ground states any two of them may be given, and then the bonds perhaps include
    loops that cost nothing beside the wall itself.

    >>> import ising2d
    >>> found = ising2d.wall("cylinder", 1, 3, [5, 7, 2], states=True)
    >>> found.difference, found.bonds, found.length
    (4, (2,), 1)
    >>> bool(found.ground.check()), bool(found.turned.check())
    (True, True)
    """

    periodic: int
    antiperiodic: int
    difference: int
    ground: Ground
    turned: Ground
    bonds: Tuple[int, ...]

    @property
    def length(self) -> int:
        """The number of bonds of the wall."""
        return len(self.bonds)

    @property
    def real(self) -> RealWall:
        """The energies in the unit of the real couplings, and how far they can be wrong."""
        return _real_wall(self, self.ground.instance)

    def svg(
        self, places: Optional[Places] = None, cell: Optional[float] = None, legend: bool = True
    ) -> str:
        """A picture of the ground state with the wall, as SVG."""
        model = self.ground._known()
        return picture_of_wall(model, self.ground.spins, self.bonds, self.difference, places, cell, legend)

    def _repr_svg_(self) -> Optional[str]:
        return self.svg() if _is_shown(self.ground.instance) else None

    def __repr__(self) -> str:
        energies = f"{self.periodic}, {self.antiperiodic}, difference {self.difference}"
        return f"<domain wall of {self.length} bonds: energies {energies}>"


class Sizes(ByLabel[int, int]):
    """The number of spins of each cluster, the largest first, by the least spin of the cluster: a mapping
    over two arrays, ``names`` and ``counts``."""

    def __init__(self, names: UInt32Array, counts: Int64Array) -> None:
        super().__init__(Listed(names), counts)
        self.names, self.counts = names, counts

    def __reduce__(self) -> Tuple[Any, ...]:
        return Sizes, (self.names, self.counts)


@dataclass(frozen=True, eq=False, repr=False)
class Clusters(Answer, Sequence[int]):
    """The rigid clusters: for each spin the least spin of its cluster, a sequence, and in ``names`` an
    array of shape ``(spins,)``.

    >>> import ising2d
    >>> found = ising2d.clusters("square", 1, 3, [5, 0])
    >>> list(found), found.sizes, found.members(0)
    ([0, 0, 2], {0: 2, 2: 1}, [0, 1])
    >>> found.sizes.names.tolist(), found.sizes.counts.tolist()
    ([0, 2], [2, 1])
    """

    names: UInt32Array
    instance: Optional[Model] = field(default=None, compare=False)

    def __len__(self) -> int:
        return len(self.names)

    @overload
    def __getitem__(self, place: int) -> int: ...

    @overload
    def __getitem__(self, place: slice) -> List[int]: ...

    def __getitem__(self, place: Union[int, slice]) -> Union[int, List[int]]:
        own: Union[int, List[int]] = self.names[place].tolist() if is_numpy(self.names) else _at(self.names, place)
        return own

    def __iter__(self) -> Iterator[int]:
        return iter(self.names.tolist())

    def __array__(self, dtype: Any = None, copy: Optional[bool] = None) -> UInt32Array:
        found: UInt32Array = numpy.array(self.names, dtype=dtype)
        return found

    @property
    def sizes(self) -> Sizes:
        """The number of spins of each cluster by its least spin, the largest first: a mapping, with
        ``sizes.names`` and ``sizes.counts`` as arrays."""
        if is_numpy(self.names):
            counts = numpy.bincount(self.names)
            names = numpy.flatnonzero(counts).astype("uint32")
            order = numpy.argsort(-counts[names], kind="stable")
            return Sizes(read_only(names[order]), read_only(counts[names][order]))
        own = sorted(Counter(self.names.tolist()).items(), key=lambda entry: (-entry[1], entry[0]))
        return Sizes(as_array([name for name, _ in own], "uint32"), as_array([count for _, count in own], "int64"))

    def members(self, name: int) -> List[int]:
        """The spins of the cluster with this least spin."""
        if is_numpy(self.names):
            found: List[int] = numpy.flatnonzero(self.names == name).tolist()
            return found
        return [spin for spin, own in enumerate(self.names.tolist()) if own == name]

    def svg(
        self, places: Optional[Places] = None, cell: Optional[float] = None, legend: bool = True
    ) -> str:
        """A picture of the clusters, as SVG."""
        model = _known(self.instance, "instance")
        return picture_of_clusters(model, self.names.tolist(), self.sizes, places, cell, legend)

    def _repr_svg_(self) -> Optional[str]:
        return self.svg() if _is_shown(self.instance) else None

    def __repr__(self) -> str:
        if len(self) <= 12:
            return f"Clusters({list(self)})"
        counts = self.sizes.counts
        return f"<{len(counts)} rigid clusters of {len(self)} spins, the largest of {counts[0]}>"


def _at(values: Any, place: Union[int, slice]) -> Union[int, List[int]]:
    """An entry, or a slice as a list, of an array without numpy."""
    found: Union[int, List[int]] = values[place] if isinstance(place, int) else values[place].tolist()
    return found


class Turn(NamedTuple):
    """The coupling of a bond at which the ground states change, and on which side of it the coupling
    lies: ``above`` (its spins are equal in all ground states), ``below`` (opposite), or ``at``.

    >>> import ising2d
    >>> ising2d.ranges("cylinder", 1, 3, [5, 7, 2])[2]
    Turn(coupling=-5, side='above')
    """

    coupling: int
    side: str


def turn_of(coupling: int, cost: int, is_unlike: bool) -> Turn:
    """The turn of a bond by its cost, which is twice how far its coupling lies from it."""
    if cost == 0:
        return Turn(coupling, "at")
    return Turn(coupling + cost // 2, "below") if is_unlike else Turn(coupling - cost // 2, "above")


@dataclass(frozen=True, eq=False, repr=False)
class Cut(Answer):
    """The largest cut: its weight; an array of shape ``(spins,)`` with 1 or -1 for each spin, where the
    bonds between opposite spins are cut; and the loops, or the ``nest``, that prove it, by a ground state
    of the instance with every sign changed.

    >>> import ising2d
    >>> found = ising2d.maxcut("square", 2, 2, [3, 4, 2, -5])
    >>> found.weight, found.spins.tolist(), found.bonds()
    (7, [1, -1, 1, -1], [0, 1])
    """

    weight: int
    spins: Int8Array
    loops: Sequence[Loop]
    instance: Optional[Model] = field(default=None, compare=False)
    negated: Optional[Model] = field(default=None, compare=False)
    nest: Optional[Nest] = field(default=None, compare=False)

    def bonds(self) -> List[int]:
        """The numbers of the bonds that are cut."""
        return _known(self.instance, "instance")._unlike(self.spins)

    def by_node(self) -> Mapping[Hashable, int]:
        """The side of each node by its label."""
        return _known(self.instance, "instance").by_node(self.spins)

    def edge_labels(self) -> List[Hashable]:
        """The labels of the bonds that are cut."""
        return _known(self.instance, "instance").named(self.bonds())

    def check(self) -> Verdict:
        """The verdict on this proof: that the spins are a ground state with every sign changed."""
        total = sum(_known(self.instance, "instance").couplings.tolist())
        own = total - 2 * self.weight, self.spins, self.loops, self.nest
        return _known(self.negated, "instance").check(*own)

    def __repr__(self) -> str:
        proof = _proof_text(self.loops, self.nest)
        return f"<cut of {len(self.spins)} spins: weight {self.weight}, {proof}>"


@dataclass(frozen=True, eq=False, repr=False)
class Report(Answer):
    """All numbers of an instance: the number of bonds, the least energy with its spins and loops, the
    sum of the sizes of all couplings, the cost of each bond, the clusters, and the wall, or None if
    the seam is empty. The weights of the loops sum to ``energy + sum``.

    >>> import ising2d
    >>> found = ising2d.report("cylinder", 1, 3, [5, 7, 2])
    >>> found.energy, found.sum, found.costs.tolist(), found.wall.difference
    (-14, 14, [14, 18, 14], 4)
    """

    bonds: int
    energy: int
    sum: int
    spins: Int8Array
    loops: Sequence[Loop]
    costs: Int64Array
    clusters: Clusters
    wall: Optional[Wall]
    instance: Optional[Model] = field(default=None, compare=False)
    nest: Optional[Nest] = field(default=None, compare=False)

    @property
    def ground(self) -> Ground:
        """The ground state, with what can be asked of it."""
        return Ground(self.energy, self.spins, self.loops, self.instance, self.nest)

    def __repr__(self) -> str:
        rigid = sum(cost > 0 for cost in self.costs.tolist())
        wall = "" if self.wall is None else f", wall {self.wall.difference}"
        return (
            f"<report on {len(self.spins)} spins: energy {self.energy}, {rigid} rigid bonds, "
            f"{len(self.clusters.sizes)} clusters{wall}, {_proof_text(self.loops, self.nest)}>"
        )


def svg(
    answer: Union[Ground, DomainWall, Clusters],
    places: Optional[Places] = None,
    loops: int = 3,
    cell: Optional[float] = None,
    legend: bool = True,
) -> str:
    """A picture of a ground state, of a domain wall with its states, or of clusters, as SVG.

    Lattices are drawn at their places, and the first column of a cylinder a second time behind its
    last. Other graphs are drawn at ``places`` (a pair for each spin, or a dictionary by label), or
    where ``networkx.planar_layout`` puts them. Frustrated faces are shaded, negative bonds dashed,
    broken bonds crossed, and of the proof the heaviest ``loops`` are drawn. ``cell`` is the length of a
    bond in pixels, from 1 to 1000.

    >>> import ising2d
    >>> ising2d.svg(ising2d.ground("square", 2, 2, [3, 4, 2, -5]))[:4]
    '<svg'
    """
    if isinstance(answer, Ground) and answer.instance is not None:
        return answer.svg(places, loops, cell, legend)
    if isinstance(answer, DomainWall) and answer.ground.instance is not None:
        return answer.svg(places, cell, legend)
    if isinstance(answer, Clusters) and answer.instance is not None:
        return answer.svg(places, cell, legend)
    raise TypeError("svg: expected a ground state, a domain wall with states or clusters")


class WeightedGraph(Protocol):
    """The weighted graph that an answer about T-joins and walks is for: a ``Network``."""

    def node_labels(self) -> Sequence[Hashable]: ...

    def named(self, edges: Iterable[int]) -> List[Hashable]: ...

    def odd_nodes(self) -> List[int]: ...

    def judge(self, terminals: Sequence[int]) -> Judge: ...

    @property
    def scale(self) -> Optional[Scale]: ...

    def has_cuts(self) -> bool: ...

    def cuts_of(self, terminals: Sequence[int]) -> Tuple[OddCut, ...]: ...

    def check_join(self, found: Join) -> Tuple[int, Tuple[int, ...]]: ...


class OddCut(NamedTuple):
    """A cut that parts the terminals oddly, with its weight in the packing, and its edges."""

    weight: int
    edges: Tuple[int, ...]


@dataclass(frozen=True, eq=False, repr=False)
class Join(Answer):
    """A minimum T-join of the terminals: its weight, its edges by their numbers, and the ``nest`` of regions
    that proves it. ``network`` is the graph, and ``terminals`` are the numbers of its nodes that were
    asked for. ``cuts`` prove it too: the weights of odd cuts sum to twice the weight of the T-join.

    >>> import ising2d
    >>> found = ising2d.tjoin(3, [(0, 1, 2), (1, 2, 3), (0, 2, 4)], [0, 2])
    >>> found.edges, found.check().sentence
    ((2,), 'the proof holds: no T-join of these terminals weighs less')
    >>> sum(cut.weight for cut in found.cuts)
    8
    """

    weight: int
    edges: Tuple[int, ...]
    network: Optional[WeightedGraph] = field(default=None, compare=False)
    terminals: Tuple[int, ...] = field(default=(), compare=False)
    nest: Optional[Nest] = field(default=None, compare=False)
    stated_cuts: Optional[Tuple[OddCut, ...]] = field(default=None, compare=False)

    def edge_labels(self) -> List[Hashable]:
        """The labels of the edges of the T-join."""
        return _known(self.network, "network").named(self.edges)

    @cached_property
    def cuts(self) -> Tuple[OddCut, ...]:
        """Odd cuts that prove it: the stated ones, else cuts that the program finds, which takes at most 2048
        nodes and 6144 edges."""
        if self.stated_cuts is not None:
            return self.stated_cuts
        return _known(self.network, "network").cuts_of(self.terminals)

    @property
    def real(self) -> Bounded:
        """The weight in the unit of the real weights, and by how much it can be wrong."""
        scale = _known(self.network, "network").scale
        return _known(scale, "scale of real weights").value(self.weight)

    def check(self) -> Verdict:
        """The verdict on this proof: on the stated cuts, in plain Python, which trusts no solver; else on the
        nest, by the library's checker of nests; without a nest on the cuts."""
        return Verdict(*_known(self.network, "network").check_join(self), of="join")

    def as_dict(self) -> Dict[str, object]:
        """The numbers by their names, as JSON can have them; with the cuts if the program takes the graph."""
        network = self.network
        own = super().as_dict()
        if network is not None and network.has_cuts():
            own["cuts"] = [{"weight": cut.weight, "edges": list(cut.edges)} for cut in self.cuts]
        return own


class Step(NamedTuple):
    """A step of a walk: the edge, and the node to which it goes."""

    edge: int
    node: int


@dataclass(frozen=True, eq=False, repr=False)
class Tour(Answer):
    """A shortest closed walk over every edge: its weight, its steps, by the numbers of edges and nodes,
    and the cuts that prove it. ``start`` is the number of the node where it begins and ends.

    >>> import ising2d
    >>> found = ising2d.postman(3, [(0, 1, 2), (1, 2, 3)])
    >>> found.weight, found.steps[0], found.node_labels(), bool(found.check())
    (10, Step(edge=0, node=1), [0, 1, 2, 1, 0], True)
    """

    weight: int
    steps: Tuple[Step, ...]
    cuts: Tuple[OddCut, ...]
    start: int = 0
    network: Optional[WeightedGraph] = field(default=None, compare=False)

    def node_labels(self) -> List[Hashable]:
        """The labels of the nodes in the order of the walk, the start at first and at last."""
        labels = _known(self.network, "network").node_labels()
        return [labels[self.start], *(labels[step.node] for step in self.steps)]

    def edge_labels(self) -> List[Hashable]:
        """The labels of the edges in the order of the walk."""
        return _known(self.network, "network").named(step.edge for step in self.steps)

    def check(self) -> Verdict:
        """The verdict on this proof, by a judge in plain Python, which trusts no solver."""
        network = _known(self.network, "network")
        judge = network.judge(network.odd_nodes())
        return Verdict(*judge.on_walk(self.weight, self.start, self.steps, self.cuts), of="walk")


@dataclass(frozen=True, eq=False, repr=False)
class Sample(Answer):
    """The numbers of a drawn square lattice: spins, bonds, the sum of the sizes of its couplings, its
    least energy, and the weight of the bonds that are broken at it.

    >>> import ising2d
    >>> ising2d.sample("one", 0, 2, 2)
    Sample(spins=4, bonds=4, sum=4, energy=-4, broken=0)
    """

    spins: int
    bonds: int
    sum: int
    energy: int
    broken: int


@dataclass(frozen=True, eq=False, repr=False)
class Ensemble(Answer):
    """The wall energy of each of the drawn cylinders, their sum and the sum of their squares.

    >>> import ising2d
    >>> found = ising2d.ensemble("pm", 1, 8, 8, 1000)
    >>> found.sum, found.squares, round(found.mean, 3), round(found.error, 3)
    (-78, 3108, -0.078, 0.056)
    >>> round(found.mean_size, 3), round(found.size_error, 3)
    (1.226, 0.04)
    """

    walls: Int64Array
    sum: int
    squares: int

    @classmethod
    def of(cls, walls: Iterable[int]) -> Ensemble:
        """The ensemble of these walls, as of some that were kept in a file."""
        own = [int(wall) for wall in walls]
        return cls(as_array(own, "int64"), sum(own), sum(wall * wall for wall in own))

    @property
    def mean(self) -> float:
        """The mean wall energy, with its sign."""
        return self.sum / len(self.walls)

    @property
    def error(self) -> float:
        """The error bar of the mean; not a number for a single sample."""
        return _error(len(self.walls), self.sum, self.squares)

    @property
    def mean_size(self) -> float:
        """The mean size of a wall energy, without its sign: what scales as length to the stiffness
        exponent."""
        return self._sizes() / len(self.walls)

    @property
    def size_error(self) -> float:
        """The error bar of the mean size; not a number for a single sample."""
        return _error(len(self.walls), self._sizes(), self.squares)

    def _sizes(self) -> int:
        return sum(map(abs, self.walls.tolist()))


def _error(count: int, total: int, squares: int) -> float:
    """The error bar of the mean of so many numbers."""
    if count < 2:
        return float("nan")
    variance = max(0.0, squares / count - (total / count) ** 2)
    return float((variance / (count - 1)) ** 0.5)


class Width(NamedTuple):
    """The sums of the ensemble with so many columns."""

    cols: int
    sum: int
    squares: int


@dataclass(frozen=True, eq=False, repr=False)
class Run(Answer):
    """The exit status of a run, and its text."""

    status: int
    text: str
