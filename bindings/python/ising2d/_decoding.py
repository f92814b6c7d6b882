"""Many T-joins on one graph: the lists of terminals, and the answers as arrays."""

from __future__ import annotations

import contextlib
from dataclasses import dataclass
from itertools import accumulate, chain
from typing import TYPE_CHECKING, Any, Callable, Iterator, List, Optional, Sequence, Tuple, Union, overload

from ._arrays import as_array, is_numpy, listed_of, numpy, read_only, refuse_unordered, whole_list, whole_numbers
from ._joins import Many, Shots
from ._threads import in_order
from ._types import Whole

if TYPE_CHECKING:
    from ._types import BoolArray, Int64Array, Integers, UInt32Array, UInt64Array

# So many terminals make a batch, which one thread solves in one call.
_BATCH = 1 << 14


@dataclass(frozen=True, eq=False)
class Joins(Sequence[Tuple[int, ...]]):
    """Minimum T-joins for many lists of terminals on one graph, in the order of the lists: their
    ``weights``, and their edges by their numbers, those of list i from ``edges[starts[i]]`` to
    ``edges[starts[i + 1] - 1]``. An item is the edges of one of them.

    >>> import ising2d
    >>> ring = ising2d.Network(4, [(0, 1, 1), (1, 2, 1), (2, 3, 1), (3, 0, 1)])
    >>> found = ring.tjoin_many([[0, 1], [2, 3]])
    >>> len(found), list(found), list(map(bool, found.parity([0])))
    (2, [(0,), (2,)], [True, False])
    """

    weights: Int64Array
    starts: UInt64Array
    edges: UInt32Array
    edge_count: int

    @classmethod
    def of(cls, parts: List[Many], shots: Shots, edge_count: int) -> Joins:
        """The answers of batches, as one."""
        if len(parts) == 1:
            return cls(*parts[0], edge_count)
        starts, before = [0], 0
        weights: List[int] = []
        edges: List[int] = []
        if numpy is not None:
            shifts = numpy.cumsum([0] + [len(part.edges) for part in parts])[:-1]
            pieces = [part.starts[1:] + numpy.uint64(shift) for part, shift in zip(parts, shifts)]
            return cls(
                read_only(numpy.concatenate([numpy.zeros(0, "int64"), *(part.weights for part in parts)])),
                read_only(numpy.concatenate([numpy.zeros(1, "uint64"), *pieces])),
                read_only(numpy.concatenate([numpy.zeros(0, "uint32"), *(part.edges for part in parts)])),
                edge_count,
            )
        for part in parts:
            weights += part.weights.tolist()
            edges += part.edges.tolist()
            starts += [before + start for start in part.starts.tolist()[1:]]
            before = len(edges)
        return cls(as_array(weights, "int64"), as_array(starts, "uint64"), as_array(edges, "uint32"), edge_count)

    def __len__(self) -> int:
        return len(self.weights)

    @overload
    def __getitem__(self, place: int) -> Tuple[int, ...]: ...

    @overload
    def __getitem__(self, place: slice) -> List[Tuple[int, ...]]: ...

    def __getitem__(self, place: Union[int, slice]) -> Union[Tuple[int, ...], List[Tuple[int, ...]]]:
        if isinstance(place, slice):
            return [self[i] for i in range(*place.indices(len(self)))]
        number = range(len(self))[place]
        own = self.edges[int(self.starts[number]) : int(self.starts[number + 1])]
        return tuple(own.tolist())

    def __iter__(self) -> Iterator[Tuple[int, ...]]:
        return (self[i] for i in range(len(self)))

    def __eq__(self, other: object) -> bool:
        if not isinstance(other, Joins):
            return NotImplemented
        own, others = self._arrays(), other._arrays()
        return all(one.tolist() == two.tolist() for one, two in zip(own, others))

    def _arrays(self) -> Tuple[Any, Any, Any]:
        return self.weights, self.starts, self.edges

    def __repr__(self) -> str:
        return f"<minimum T-joins of {len(self)} lists of terminals, {len(self.edges)} edges together>"

    def parity(self, edges: Integers) -> BoolArray:
        """For each T-join whether it has an odd number of these edges: what decides a logical error, if
        they are the edges that a logical operator crosses."""
        marked = _marks([int(edge) for edge in listed_of(edges, "edges")], self.edge_count)
        if numpy is not None:
            inside = numpy.concatenate([[0], numpy.cumsum(numpy.asarray(marked)[self.edges])])
            ends = inside[self.starts.astype("int64")]
            found: BoolArray = read_only((ends[1:] - ends[:-1]) % 2 == 1)
            return found
        listed: Any = [sum(marked[edge] for edge in own) % 2 == 1 for own in self]
        plain: BoolArray = listed
        return plain

    def matrix(self) -> BoolArray:
        """The T-joins as a matrix of bools of shape (lists, edges). It needs numpy."""
        if numpy is None:
            raise ImportError("numpy is needed for a matrix: install it, or use the lists of edges")
        found = numpy.zeros((len(self), self.edge_count), dtype=bool)
        found[numpy.repeat(numpy.arange(len(self)), numpy.diff(self.starts.astype("int64"))), self.edges] = True
        own: BoolArray = read_only(found)
        return own


def _marks(edges: Sequence[int], count: int) -> List[int]:
    """1 at each of these edges, 0 at the others."""
    found = [0] * count
    for edge in edges:
        if not 0 <= edge < count:
            raise ValueError(f"edges: there is no edge {edge}")
        found[edge] = 1
    return found


def shots_of(
    given: Any, n: int, numbers_of: Optional[Callable[[Any], List[int]]], boundary: Optional[int]
) -> Shots:
    """The lists of terminals as the library takes them, each with the boundary toggled if their number is
    odd. Nodes are given by their numbers where nothing else tells these."""
    if is_numpy(given) and given.dtype.kind == "b":
        return _of_matrix(given, n, boundary)
    refuse_unordered(given, "terminals")
    lists = listed_of(given, "terminals")
    if numbers_of is None:
        with contextlib.suppress(TypeError, OverflowError):
            return _of_lists(lists, boundary)
        # A list that is wrong is named below, and one that is no plain list is read there.
    tell = numbers_of or (lambda own: whole_list(own, "uint32", "terminals"))
    return _of_lists([tell(own) for own in lists], boundary)


def _of_lists(lists: List[List[int]], boundary: Optional[int]) -> Shots:
    """The same of plain lists of numbers. All of them are read at once."""
    if not set(map(type, lists)) <= {list}:
        raise TypeError("terminals: expected lists")
    if boundary is not None:
        if not set(map(type, chain.from_iterable(lists))) <= {int}:
            raise TypeError("terminals: expected lists of numbers")
        lists = [completed(own, boundary) for own in lists]
    starts = [0, *accumulate(map(len, lists))]
    terminals = whole_numbers(list(chain.from_iterable(lists)), "uint32", "terminals")
    return Shots(as_array(starts, "uint64"), read_only(terminals))


def completed(terminals: List[int], boundary: int) -> List[int]:
    """The terminals, with the boundary toggled if their number is odd."""
    if len(terminals) % 2 == 0:
        return terminals
    return [node for node in terminals if node != boundary] if boundary in terminals else [*terminals, boundary]


def _of_matrix(given: Any, n: int, boundary: Optional[int]) -> Shots:
    if given.ndim != 2 or given.shape[1] != n:
        raise TypeError(f"terminals: expected a matrix of shape (lists, {n}), not one of shape {given.shape}")
    if boundary is not None:
        given = given.copy()
        given[:, boundary] ^= given.sum(axis=1) % 2 == 1
    starts = numpy.concatenate([[0], numpy.cumsum(given.sum(axis=1))]).astype("uint64")
    return Shots(starts, numpy.nonzero(given)[1].astype("uint32"))


def in_batches(
    solve: Callable[[Shots], Many], shots: Shots, threads: Optional[Whole]
) -> List[Many]:
    """The answers of all batches, side by side in threads."""
    return list(in_order(solve, _batches(shots), threads))


def _batches(shots: Shots) -> Iterator[Shots]:
    """The lists in batches of so many terminals; at least one."""
    starts = shots.starts
    count = len(starts) - 1
    first = 0
    while True:
        last = min(first + 1, count)
        while last < count and int(starts[last + 1]) - int(starts[first]) <= _BATCH and last - first < _BATCH:
            last += 1
        base = int(starts[first])
        own = [int(start) - base for start in starts[first : last + 1]]
        yield Shots(as_array(own, "uint64"), shots.terminals[base : int(starts[last])])
        first = last
        if first >= count:
            return
