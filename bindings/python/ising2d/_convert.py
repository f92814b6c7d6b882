"""Graphs of other packages as nodes, bonds and labels. None of the packages is imported before it is used."""

from __future__ import annotations

import importlib
from typing import Any, Dict, Hashable, Iterable, List, NamedTuple, Optional, Sequence, Tuple

from ._arrays import listed_of, refuse_unordered, shortened, whole
from ._errors import NotPlanar, RefusalCode
from ._types import NetworkxGraph, QuadraticModel, SparseMatrix, Whole

Bond = Tuple[int, int, Any]


class Parts(NamedTuple):
    """The nodes of a graph by their labels, its bonds by numbers, and the labels of the bonds."""

    labels: List[Hashable]
    bonds: List[Bond]
    edges: List[Hashable]


def scaled(value: Any, scale: Optional[Whole], what: str) -> Any:
    """The value times the scale, as a whole number; without a scale the value itself."""
    if isinstance(value, (str, bytes)) or not hasattr(value, "__mul__"):
        raise TypeError(f"{what}: expected a number, not {shortened(value)}")
    if scale is None:
        return value
    product = value * whole(scale, "scale")
    try:
        number = int(product)
    except (TypeError, ValueError, OverflowError):
        raise TypeError(f"{what}: expected a whole number, not {shortened(product)}") from None
    if number != product:
        raise ValueError(
            f"{what}: {shortened(product)} is not a whole number; real=True rounds real couplings with bounds, "
            "or multiply all by one number (scale=..) that makes them whole"
        )
    return number


def drawing(parts: Parts) -> List[List[int]]:
    """The darts of each spin in the cyclic order of a drawing in the plane, by networkx."""
    for k, (u, v, _) in enumerate(parts.bonds):
        if u == v:
            raise ValueError(
                f"the edge {parts.edges[k]!r} joins a node to itself: it adds the same to every energy; "
                "leave it out"
            )
    n = len(parts.labels)
    networkx = _networkx()
    simple = networkx.Graph()
    simple.add_nodes_from(range(n))
    simple.add_edges_from((u, v) for u, v, _ in parts.bonds)
    planar, embedding = networkx.check_planarity(simple)
    if not planar:
        sentence = "the graph is not planar: it has no drawing without crossings"
        raise NotPlanar(RefusalCode.NOT_PLANAR, (), words=(sentence, "a planar graph"))
    between: Dict[Tuple[int, int], List[int]] = {}
    for k, (u, v, _) in enumerate(parts.bonds):
        between.setdefault((u, v), []).append(2 * k)
        # Parallel bonds lie side by side, so their order at the other end is the reverse.
        between.setdefault((v, u), []).insert(0, 2 * k + 1)
    return [[dart for v in embedding.neighbors_cw_order(u) for dart in between[u, v]] for u in range(n)]


def _networkx() -> Any:
    try:
        return importlib.import_module("networkx")
    except ImportError:
        raise ImportError("networkx is needed to draw a graph: install it, or give the rotation") from None


def of_networkx(graph: NetworkxGraph, attr: Optional[str], scale: Optional[Whole]) -> Parts:
    """A graph of networkx; without an attribute the number of each edge is 1."""
    if not hasattr(graph, "is_multigraph") or not hasattr(graph, "edges"):
        raise TypeError(f"expected a graph of networkx, not {shortened(graph)}")
    if graph.is_directed():
        raise ValueError("the graph is directed, and bonds have no direction: see its to_undirected()")
    labels = list(graph.nodes)
    number = {label: spin for spin, label in enumerate(labels)}
    multi = graph.is_multigraph()
    bonds: List[Bond] = []
    edges: List[Hashable] = []
    for edge in graph.edges(keys=True, data=True) if multi else graph.edges(data=True):
        name, members = tuple(edge[:-1]), edge[-1]
        if attr is not None and attr not in members:
            raise ValueError(f"the edge {name!r} has no attribute {attr!r} (attr=.. names another)")
        value = scaled(1 if attr is None else members[attr], scale, f"edge {name!r}")
        bonds.append((number[edge[0]], number[edge[1]], value))
        edges.append(name)
    return Parts(labels, bonds, edges)


def places_in(graph: NetworkxGraph) -> Optional[List[Tuple[float, float]]]:
    """Where the nodes say that they lie, if all of them do. Their second number grows to the north."""
    try:
        pairs = [members["pos"] for _, members in graph.nodes(data=True)]
        return [(float(x), -float(y)) for x, y in pairs]
    except (KeyError, TypeError, ValueError):
        return None


def seam_of(seam: Iterable[Hashable], edges: Sequence[Any]) -> List[int]:
    """The numbers of the edges of a seam, whose nodes may be in any order."""
    place: Dict[Any, int] = {}
    for k, edge in enumerate(edges):
        place[edge] = place[(edge[1], edge[0], *edge[2:])] = k
    found = []
    for edge in listed_of(seam, "seam"):
        if not isinstance(edge, tuple) or edge not in place:
            raise ValueError(f"seam: there is no edge {shortened(edge)}")
        found.append(place[edge])
    return found


def of_triples(bonds: Iterable[Sequence[Any]], scale: Optional[Whole], what: str) -> Parts:
    """The parts of a graph by triples of two nodes and a number."""
    refuse_unordered(bonds, what + "s")
    number: Dict[Hashable, int] = {}
    found: List[Bond] = []
    edges: List[Hashable] = []
    for k, bond in enumerate(listed_of(bonds, what + "s")):
        if not isinstance(bond, (tuple, list)) or len(bond) != 3:
            raise TypeError(f"{what}s: expected two nodes and a number, not {shortened(bond)}")
        u, v = (number.setdefault(node, len(number)) for node in bond[:2])
        found.append((u, v, scaled(bond[2], scale, f"{what} {k}")))
        edges.append((bond[0], bond[1], k))
    return Parts(list(number), found, edges)


def of_bqm(bqm: QuadraticModel, scale: Optional[Whole]) -> Parts:
    """See ``Graph.from_bqm``: the couplings are the biases with their signs changed."""
    if not hasattr(bqm, "linear") or not hasattr(bqm, "quadratic"):
        raise TypeError(f"expected a model with linear and quadratic, not {shortened(bqm)}")
    vartype = getattr(bqm, "vartype", None)
    if getattr(vartype, "name", vartype) not in (None, "SPIN"):
        raise ValueError("the model is not of spins 1 and -1: see its change_vartype('SPIN')")
    refuse_fields(bqm.linear)
    number: Dict[Hashable, int] = {label: spin for spin, label in enumerate(bqm.linear)}
    bonds: List[Bond] = []
    edges: List[Hashable] = []
    for (first, second), bias in bqm.quadratic.items():
        u, v = (number.setdefault(node, len(number)) for node in (first, second))
        bonds.append((u, v, -scaled(bias, scale, f"bias {(first, second)!r}")))
        edges.append((first, second))
    return Parts(list(number), bonds, edges)


def refuse_fields(linear: Any) -> None:
    """Raises ``ValueError`` for a field that is not 0."""
    for label, bias in linear.items():
        if bias != 0:
            raise ValueError(
                f"the field at {label!r} is {bias!r}: with a field the problem is hard in general, "
                "and only models without one are solved"
            )


def of_scipy(matrix: SparseMatrix, scale: Optional[Whole]) -> Parts:
    """See ``Graph.from_scipy``."""
    if not hasattr(matrix, "tocoo"):
        raise TypeError(f"expected a sparse matrix of scipy, not {shortened(matrix)}")
    given = matrix.tocoo()
    if given.shape[0] != given.shape[1]:
        raise ValueError(f"the matrix has the shape {given.shape}, and is not square")
    entries: Dict[Tuple[int, int], Any] = {}
    for u, v, value in zip(given.row.tolist(), given.col.tolist(), given.data.tolist()):
        entries[u, v] = entries.get((u, v), 0) + value
    bonds: List[Bond] = []
    for (u, v), value in sorted(entries.items()):
        if (v, u) in entries and entries[v, u] != value:
            raise ValueError(f"the matrix is not symmetric at ({u}, {v}): {value!r} and {entries[v, u]!r}")
        if u == v and value == 0:
            continue
        if u <= v or (v, u) not in entries:
            bonds.append((u, v, scaled(value, scale, f"entry ({u}, {v})")))
    edges: List[Hashable] = [(u, v) for u, v, _ in bonds]
    return Parts(list(range(given.shape[0])), bonds, edges)
