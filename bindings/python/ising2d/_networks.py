"""Weighted graphs: minimum T-joins and shortest closed walks."""

from __future__ import annotations

import math
from functools import cached_property
from typing import (
    TYPE_CHECKING,
    Any,
    Dict,
    Hashable,
    Iterable,
    List,
    Optional,
    Sequence,
    Tuple,
    Union,
)

from . import _convert, _joins
from ._answers import Join, OddCut, Step, Tour
from ._arrays import (
    as_array,
    in_32_bits,
    is_numpy,
    listed_of,
    numpy,
    read_only,
    refuse_unordered,
    shortened,
    whole,
    whole_list,
    whole_numbers,
)
from ._decoding import Joins, completed, in_batches, shots_of
from ._errors import Member, RefusalCode, Words, words_of
from ._judging import Edge, Judge, odd_nodes
from ._real import Scale, real_number, rounded
from ._runs import answered, numbers, one_of, records_in, weighted
from ._threads import ONE_STATE, interruptible
from ._types import NetworkxGraph, SparseMatrix, Whole

if TYPE_CHECKING:
    from ._types import Int64Array, Integers, Real, RealTriples, TerminalLists, Triples, UInt32Array


# What the columns of edges are called in errors, and how many edges a repr shows.
_ENDS, _WEIGHTS = "nodes of the edges", "weights of the edges"
_SHOWN = 64
# What is allowed of graphs that cross as numbers.
_LARGE: Dict[int, str] = {
    RefusalCode.TOO_MANY_SPINS: f"at most {_joins.MOST_NODES}",
    RefusalCode.TOO_MANY_BONDS: f"at most {_joins.MOST_EDGES}",
}


class Network:
    """A weighted graph: ``n`` nodes from 0, and ``edges``, triples (a, b, weight) with weights of 0 or
    more, as a list or as an array of shape (edges, 3). It must be connected, and need not be planar;
    edges may be parallel, and may join a node to itself. At most 2**22 nodes and 3 * 2**22 edges; the
    weights sum to at most 2**44.

    ``labels`` are names of the nodes and ``names`` names of the edges; without them nodes are named by
    their numbers, and an edge by its two nodes and its number. ``from_edges`` and ``from_networkx`` take
    nodes of any names, ``from_scipy`` a sparse matrix, and ``from_probabilities`` the probabilities of
    independent errors.

    >>> roads = Network.from_edges([("a", "b", 2), ("b", "c", 3), ("a", "c", 4)])
    >>> roads.tjoin(["a", "c"]).edge_labels()
    [('a', 'c', 2)]
    >>> Network.from_edges([("a", "b", 2), ("b", "c", 3)]).postman("c").node_labels()
    ['c', 'b', 'a', 'b', 'c']
    """

    def __init__(
        self,
        n: Whole,
        edges: Triples,
        labels: Optional[Sequence[Hashable]] = None,
        names: Optional[Sequence[Hashable]] = None,
    ) -> None:
        self.n = in_32_bits(n, "n")
        ends, weights = _columns(edges)
        self._ends: UInt32Array = read_only(ends)
        self.weights: Int64Array = read_only(weights)
        self.labels = _fitting(labels, self.n, "nodes")
        self.names = _fitting(names, len(self.weights), "edges")
        self.scale: Optional[Scale] = None

    @cached_property
    def edges(self) -> Tuple[Edge, ...]:
        """The edges as triples (a, b, weight)."""
        listed = self._ends.tolist()
        return tuple(zip(listed[::2], listed[1::2], self.weights.tolist()))

    def __repr__(self) -> str:
        count = len(self.weights)
        if count <= _SHOWN:
            return f"Network({self.n}, {shortened(list(self.edges))})"
        return f"<network of {self.n} nodes and {count} edges>"

    def __eq__(self, other: object) -> bool:
        if not isinstance(other, Network):
            return NotImplemented
        return self._key() == other._key()

    def __hash__(self) -> int:
        return hash(self._key())

    def _key(self) -> Tuple[int, bytes, bytes]:
        return self.n, self._ends.tobytes(), self.weights.tobytes()

    # What the numbers are of.

    def node_labels(self) -> Sequence[Hashable]:
        """The label of each node."""
        return range(self.n) if self.labels is None else self.labels

    def edge_labels(self) -> Sequence[Hashable]:
        """The label of each edge."""
        if self.names is not None:
            return self.names
        nodes = self.node_labels()
        return [(nodes[a], nodes[b], k) for k, (a, b, _) in enumerate(self.edges)]

    def named(self, edges: Iterable[int]) -> List[Hashable]:
        """The labels of edges by their numbers."""
        if self.names is not None:
            return [self.names[k] for k in edges]
        nodes, ends = self.node_labels(), self._ends
        return [(nodes[int(ends[2 * k])], nodes[int(ends[2 * k + 1])], int(k)) for k in edges]

    def odd_nodes(self) -> List[int]:
        """The numbers of the nodes where an odd number of edges ends, in rising order."""
        return sorted(odd_nodes(self.edges, range(len(self.edges))))

    def judge(self, terminals: Sequence[int]) -> Judge:
        """The judge of T-joins of these terminals, which are numbers."""
        return Judge(self.n, self.edges, terminals)

    def numbers(self) -> _joins.Numbers:
        """The graph as the library takes it."""
        return _joins.Numbers(self.n, self._ends, self.weights)

    # The calls.

    def tjoin(
        self,
        terminals: Union[Iterable[Hashable], Integers],
        boundary: Optional[Hashable] = None,
        nest: bool = True,
    ) -> Join:
        """A minimum T-join of the terminals, which are labels: a set of edges with an odd number of edge
        ends at each terminal, an even number at every other node, and the least weight. The ``nest`` of
        regions proves it.

        ``boundary`` is the label of a node that joins the terminals if their number is odd, as decoders
        want it. Raises ``BadTerminals`` for an odd number of terminals, a terminal that is no node or is
        there twice, and a graph that is not connected.

        >>> line = Network(3, [(0, 1, 2), (1, 2, 3)])
        >>> line.tjoin([1], boundary=0).edges
        (0,)
        """
        asked = _Asked(self, self._completed(self._numbers_of(terminals), boundary), large=True)
        own = as_array(asked.terminals, "uint32")
        found = interruptible(self.n > ONE_STATE, _joins.join_of, self.numbers(), own, nest, asked)
        return Join(found.weight, tuple(found.edges.tolist()), self, tuple(asked.terminals), found.nest)

    def tjoin_many(
        self,
        terminals: TerminalLists,
        boundary: Optional[Hashable] = None,
        threads: Optional[Whole] = None,
    ) -> Joins:
        """A minimum T-join for each of many lists of terminals on this graph, which is built once.

        ``terminals`` are lists of node labels, or a matrix of bools of shape (lists, nodes), true at the
        terminals. ``boundary`` is as for ``tjoin``. The answer has arrays; each T-join was judged by a
        nest of its own before it was handed out.

        >>> ring = Network(4, [(0, 1, 1), (1, 2, 1), (2, 3, 1), (3, 0, 1)])
        >>> found = ring.tjoin_many([[0, 1], [], [0, 2]])
        >>> found.weights.tolist(), found[0]
        ([1, 0, 2], (0,))
        """
        extra = None if boundary is None else self._number_of(boundary, "boundary")
        shots = shots_of(terminals, self.n, None if self.labels is None else self._numbers_of, extra)

        def solved(part: _joins.Shots) -> _joins.Many:
            return _joins.joins_of(self.numbers(), part, _AskedMany(self, part))

        return Joins.of(interruptible(True, in_batches, solved, shots, threads), shots, len(self.weights))

    def _completed(self, terminals: List[int], boundary: Optional[Hashable]) -> List[int]:
        """The terminals, with the boundary toggled if their number is odd."""
        if boundary is None or len(terminals) % 2 == 0:
            return terminals
        return completed(terminals, self._number_of(boundary, "boundary"))

    def has_cuts(self) -> bool:
        """Whether the program takes the graph, which finds cuts."""
        return self.n <= 2048 and len(self.weights) <= 6144

    def cuts_of(self, terminals: Sequence[int]) -> Tuple[OddCut, ...]:
        """Odd cuts whose weights sum to twice the weight of a minimum T-join of these terminals, by the
        program, whose limits are 2048 nodes and 6144 edges."""
        asked = _Asked(self, list(terminals))
        return _cuts(answered(["tjoin"], asked.text(), asked))

    def check_join(self, found: Join) -> Tuple[int, Tuple[int, ...]]:
        """The number of the verdict on a T-join, and what it keeps."""
        if found.stated_cuts is not None or found.nest is None:
            return self.judge(found.terminals).on_join(found.weight, found.edges, found.cuts)
        if self._is_proved(found):
            return 0, ()
        number, kept = self.judge(found.terminals).on_edges(found.weight, found.edges)
        return (number, kept) if number else (8, ())

    def _is_proved(self, found: Join) -> bool:
        """Whether the edges and the nest prove the weight."""
        weights = self.weights.tolist()
        if not all(0 <= k < len(weights) for k in found.edges):
            return False
        if found.nest is None or sum(weights[k] for k in found.edges) != found.weight:
            return False
        terminals, edges = (as_array(list(own), "uint32") for own in (found.terminals, found.edges))
        asked = _Asked(self, list(found.terminals))
        check = _joins.join_check_of
        number, _ = interruptible(
            self.n > ONE_STATE, check, self.numbers(), terminals, edges, found.nest, asked
        )
        return number == 0

    def postman(self, start: Optional[Hashable] = None) -> Tour:
        """A shortest closed walk over every edge of a connected graph, with cuts that prove it. It
        begins at the node with this label, or at the first node. At most 2048 nodes and 6144 edges."""
        first = 0 if start is None else self._number_of(start, "start")
        asked = _Asked(self, [])
        text = answered(["postman"], asked.text(), asked)
        steps = [Step(*numbers(fields)) for name, fields in records_in(text) if name == "step"]
        return Tour(one_of(text, "weight")[0], _begun(steps, first), _cuts(text), first, self)

    def _numbers_of(self, terminals: Any) -> List[int]:
        """The numbers of terminals that are given by their labels."""
        if self.labels is None:
            return whole_list(terminals, "uint32", "terminals")
        refuse_unordered(terminals, "terminals")
        return [self._number_of(label, "terminals") for label in listed_of(terminals, "terminals")]

    def _number_of(self, label: Any, what: str) -> int:
        if self.labels is None:
            number = whole(label, what)
            if 0 <= number < self.n:
                return number
        elif isinstance(label, Hashable) and label in self._numbers:
            return self._numbers[label]
        raise ValueError(f"{what}: there is no node {shortened(label)}")

    @cached_property
    def _numbers(self) -> Dict[Hashable, int]:
        """The number of each label."""
        return {label: number for number, label in enumerate(self.labels or ())}

    @classmethod
    def from_edges(cls, edges: Iterable[Sequence[Any]], scale: Whole = 1) -> Network:
        """A graph by triples (a, b, weight), with nodes of any names, in the order in which they are
        met. Times ``scale`` each weight must be a whole number."""
        return cls._of(_convert.of_triples(edges, scale, "edge"))

    @classmethod
    def from_networkx(
        cls, graph: NetworkxGraph, attr: Optional[str] = "weight", scale: Whole = 1
    ) -> Network:
        """A graph of networkx, also a multigraph. ``attr`` is the attribute of an edge that is its
        weight; with None each edge has the weight 1. Nodes and edges keep their labels. Raises
        ``ValueError`` if the graph is directed, or an edge has no such attribute.

            roads = ising2d.Network.from_networkx(G)
            walk = roads.postman("home").node_labels()
        """
        return cls._of(_convert.of_networkx(graph, attr, scale))

    @classmethod
    def from_scipy(cls, matrix: SparseMatrix, scale: Whole = 1) -> Network:
        """A graph by a sparse symmetric matrix of scipy, or by one of its triangles: entry (a, b) is the
        weight of an edge."""
        parts = _convert.of_scipy(matrix, scale)
        return cls(len(parts.labels), parts.bonds)

    @classmethod
    def from_probabilities(cls, n: Whole, edges: RealTriples, scale: Optional[Real] = None) -> Network:
        """The graph of a decoder: triples (a, b, p), where the error at an edge has the probability p,
        above 0 and at most one half, independently of the others. Its weight is log((1 - p) / p), times
        the largest power of two by which all weights sum to at most 2**44 (or times ``scale``), rounded
        to the nearest whole number. A minimum T-join is then a most likely set of errors, up to the
        rounding: ``Join.real`` has the weight in natural units and a bound of its error.

        >>> code = Network.from_probabilities(3, [(0, 1, 0.1), (1, 2, 0.2), (2, 0, 0.1)])
        >>> found = code.tjoin([0, 2])
        >>> found.edges, round(found.real.value, 6), found.real.error < 1e-11
        ((2,), 2.197225, True)
        """
        ends: List[Any] = []
        weights: List[float] = []
        for k, edge in enumerate(listed_of(edges, "edges")):
            a, b, p = _triple(edge)
            chance = float(real_number(p, "edges"))
            if not 0 < chance <= 0.5:
                raise ValueError(f"edge {k} has the probability {chance} (allowed: above 0, at most 0.5)")
            ends += [a, b]
            weights.append(math.log((1 - chance) / chance))
        found = rounded(weights, scale)
        nodes = whole_numbers(ends, "uint32", "nodes of the edges").tolist()
        network = cls(n, list(zip(nodes[::2], nodes[1::2], found.couplings.tolist())))
        network.scale = found.scale
        return network

    @classmethod
    def _of(cls, parts: _convert.Parts) -> Network:
        return cls(len(parts.labels), parts.bonds, parts.labels, parts.edges)


class _Asked:
    """A network with the terminals that are asked for, as it crosses: as numbers, or as a text of records."""

    def __init__(self, network: Network, terminals: List[int], large: bool = False) -> None:
        """``large`` is whether it crosses as numbers, which have other limits than texts."""
        self.network, self.terminals, self.large = network, terminals, large

    def text(self) -> str:
        """The records; edge k is record k + 1."""
        lines = [f"graph,{self.network.n}"]
        lines += [f"edge,{a},{b},{weight}" for a, b, weight in self.network.edges]
        if self.terminals:
            lines.append(",".join(map(str, ("term", *self.terminals))))
        return "\n".join(lines + ["end", ""])

    def _edge(self, kept: Sequence[int], number: int) -> Optional[int]:
        """The number of the edge that a refusal is about."""
        if number == RefusalCode.BAD_NUMBER and kept[0] >= 1:
            return kept[0] - 1
        if number == RefusalCode.BAD_MEMBER and kept[0] == Member.EDGES:
            return kept[1]
        return None

    def _is_about_nodes(self, kept: Sequence[int], number: int) -> bool:
        if number == RefusalCode.BAD_NUMBER:
            return kept[0] == 0
        return number == RefusalCode.BAD_MEMBER and kept[0] == Member.NODES

    def _shown(self, number: int, kept: Sequence[int]) -> Optional[str]:
        """The value that a refusal is about."""
        if self._is_about_nodes(kept, number):
            return str(self.network.n)
        edge = self._edge(kept, number)
        if edge is not None and edge < len(self.network.weights):
            ends = self.network.numbers().ends
            return str((int(ends[2 * edge]), int(ends[2 * edge + 1]), int(self.network.weights[edge])))
        is_named = self.network.labels is not None and kept and kept[0] < self.network.n
        if number in (RefusalCode.BAD_TERMINAL, RefusalCode.NOT_JOINED) and is_named:
            return shortened(self.network.node_labels()[kept[0]])
        return None

    def _words(self, number: int, kept: Sequence[int]) -> Optional[Words]:
        """What a refusal says in the words of a graph, and what is allowed."""
        value, edge = self._shown(number, kept), self._edge(kept, number)
        if self._is_about_nodes(kept, number):
            return f"n is {value}", "1 or more"
        if value is None or edge is None:
            return words_of("graph", number, kept, _LARGE.get(number, "") if self.large else "")
        last = self.network.n - 1
        return f"edge {edge} is {value}", f"nodes from 0 to {last}, and weights of 0 or more"


class _AskedMany(_Asked):
    """A network with many lists of terminals."""

    def __init__(self, network: Network, shots: _joins.Shots) -> None:
        super().__init__(network, [], large=True)
        self.shots = shots


def _fitting(labels: Optional[Sequence[Hashable]], count: int, what: str) -> Optional[Tuple[Hashable, ...]]:
    """The labels, if there is one for each."""
    if labels is None:
        return None
    listed = tuple(listed_of(labels, "labels"))
    if len(listed) != count:
        raise ValueError(f"there are {len(listed)} labels, and {count} {what}")
    return listed


def _begun(steps: List[Step], start: int) -> Tuple[Step, ...]:
    """A closed walk, begun at another node that it meets."""
    if start == 0:
        return tuple(steps)
    first = 1 + next((place for place, step in enumerate(steps) if step.node == start), -1)
    return (*steps[first:], *steps[:first])


def _columns(edges: Any) -> Tuple[Any, Any]:
    """The nodes of all edges, two for each, and the weights, as arrays."""
    refuse_unordered(edges, "edges")
    if is_numpy(edges) and edges.dtype.kind in "iu" and edges.ndim == 2 and edges.shape[1] == 3:
        nodes = whole_numbers(numpy.ascontiguousarray(edges[:, :2]).reshape(-1), "uint32", _ENDS)
        return nodes, whole_numbers(edges[:, 2], "int64", _WEIGHTS)
    listed: List[Any] = []
    weights: List[Any] = []
    for edge in edges.tolist() if is_numpy(edges) else listed_of(edges, "edges"):
        a, b, weight = _triple(edge)
        listed += [a, b]
        weights.append(weight)
    return whole_numbers(listed, "uint32", _ENDS), whole_numbers(weights, "int64", _WEIGHTS)


def _triple(edge: Any) -> Tuple[Any, Any, Any]:
    """The three entries of an edge."""
    if not isinstance(edge, (tuple, list)) and not is_numpy(edge) or len(edge) != 3:
        raise TypeError(f"edges: expected two nodes and a weight, not {shortened(edge)}")
    return edge[0], edge[1], edge[2]


def _cuts(text: str) -> Tuple[OddCut, ...]:
    return tuple(OddCut(*row) for row in weighted(text, "cut"))


def tjoin(n: Whole, edges: Triples, terminals: Integers) -> Join:
    """A minimum T-join of the terminals: a set of edges with an odd number of edge ends at each terminal, an
    even number at every other node, and the least weight, with cuts that prove it.

    ``n`` nodes from 0, ``edges`` triples (a, b, weight) with weights of 0 or more, and an even number of
    ``terminals``. The graph must be connected, and need not be planar. Raises as ``ground`` does. A
    ``Network`` has the same with nodes of any names.

    >>> found = tjoin(3, [(0, 1, 2), (1, 2, 3), (0, 2, 4)], [0, 2])
    >>> found.weight, found.edges, sum(cut.weight for cut in found.cuts)
    (4, (2,), 8)
    """
    return Network(n, edges).tjoin(terminals)


def postman(n: Whole, edges: Triples) -> Tour:
    """A shortest closed walk over every edge of a connected graph, from node 0, with cuts that prove
    it: ``n`` and ``edges`` as for ``tjoin``.

    >>> postman(2, [(0, 1, 5)]).steps
    (Step(edge=0, node=1), Step(edge=0, node=0))
    """
    return Network(n, edges).postman()
