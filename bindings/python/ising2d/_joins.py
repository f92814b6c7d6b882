"""The calls of the library on weighted graphs: minimum T-joins with the nests that prove them."""

from __future__ import annotations

import ctypes
from typing import Any, List, NamedTuple, Optional, Protocol, Sequence, Tuple

from . import _ffi
from ._arrays import buffer, first_of, pointer_to
from ._errors import Member, RefusalCode, numbers_of
from ._nests import Nest, nest_of

MOST_NODES, MOST_EDGES = _ffi.MOST_SPINS, _ffi.MOST_BONDS

Finding = Tuple[int, Tuple[int, ...]]


class Numbers(NamedTuple):
    """A weighted graph as the library takes it: the number of nodes, two nodes for each edge, and the
    weights."""

    n: int
    ends: Any
    weights: Any

    def arguments(self) -> List[Any]:
        return [self.n, *pointer_to(self.ends), *pointer_to(self.weights)]


class Asked(Protocol):
    """What a refusal is about."""

    def _shown(self, number: int, kept: Sequence[int]) -> Optional[str]:
        """The value that a refusal is about."""


class Found(NamedTuple):
    """A minimum T-join: its weight, its edges, and the nest that proves it if it is asked for and found."""

    weight: int
    edges: Any
    nest: Optional[Nest]


def join_of(numbers: Numbers, terminals: Any, with_nest: bool, asked: Asked) -> Found:
    """A minimum T-join of the terminals. Raises what the library refuses."""
    line, answer = _ffi.Line(), _ffi.JoinNumbers()
    nodes, count = min(numbers.n, MOST_NODES), min(len(numbers.weights), MOST_EDGES)
    # A region of parts has at least three, so there are fewer regions than twice the terminals.
    regions_room = 2 * min(len(terminals), nodes) if with_nest else 0
    nodes_room = nodes if with_nest else 0
    edges = buffer("uint32", count)
    parents, radii = buffer("uint32", regions_room), buffer("uint64", regions_room)
    regions, at_radii = buffer("uint32", nodes_room), buffer("uint64", nodes_room)
    status = _ffi.library().ising2d_c_join(
        *numbers.arguments(),
        *pointer_to(terminals),
        ctypes.byref(answer),
        *(part for own in (edges, parents, radii, regions, at_radii) for part in pointer_to(own)),
        *line.arguments(),
    )
    line.judge(status, asked)
    found = first_of("uint32", edges, answer.edge_count)
    regions_found, nodes_found = answer.region_count, answer.node_count
    if not with_nest or not nodes_found or regions_found > regions_room:
        return Found(answer.weight, found, None)
    nest = Nest(
        first_of("uint32", parents, regions_found),
        first_of("uint64", radii, regions_found),
        first_of("uint32", regions, nodes_found),
        first_of("uint64", at_radii, nodes_found),
    )
    return Found(answer.weight, found, nest)


def join_check_of(numbers: Numbers, terminals: Any, edges: Any, nest: Nest, asked: Asked) -> Finding:
    """The number of the verdict on a T-join and its nest: 0 or 1."""
    # The arrays that lists are copied to live as long as the call.
    line, stated = _ffi.Line(), nest_of(nest)
    status = _ffi.library().ising2d_c_join_check(
        *numbers.arguments(),
        *pointer_to(terminals),
        *pointer_to(edges),
        *(part for own in stated for part in pointer_to(own)),
        *line.arguments(),
    )
    if status == _ffi.NO:
        return 1, ()
    line.judge(status, asked)
    return 0, ()


class Shots(NamedTuple):
    """Many lists of terminals as the library takes them: list i is ``terminals[starts[i]]`` to
    ``terminals[starts[i + 1] - 1]``."""

    starts: Any
    terminals: Any


class Many(NamedTuple):
    """A minimum T-join for each list: its weight, and its edges, ``edges[starts[i]]`` to
    ``edges[starts[i + 1] - 1]``."""

    weights: Any
    starts: Any
    edges: Any


def joins_of(numbers: Numbers, shots: Shots, asked: Asked) -> Many:
    """A minimum T-join for each list of terminals."""
    # Most joins have few edges for each terminal; where the room is too small the call is repeated once.
    room = 4 * len(shots.terminals) + 64
    found, needed = _joins(numbers, shots, room, asked)
    if needed > room:
        found, needed = _joins(numbers, shots, needed, asked)
    return found


def _joins(numbers: Numbers, shots: Shots, room: int, asked: Asked) -> Tuple[Many, int]:
    """The joins, if their edges fit into the room, and how many edges there are."""
    line, needed = _ffi.Line(), ctypes.c_size_t()
    count = len(shots.starts) - 1
    weights, starts, edges = buffer("int64", count), buffer("uint64", count + 1), buffer("uint32", room)
    status = _ffi.library().ising2d_c_joins(
        *numbers.arguments(),
        *pointer_to(shots.starts),
        *pointer_to(shots.terminals),
        *(part for own in (weights, starts, edges) for part in pointer_to(own)),
        ctypes.byref(needed),
        *line.arguments(),
    )
    line.judge(status, asked)
    kept = min(needed.value, room)
    many = Many(
        first_of("int64", weights, count), first_of("uint64", starts, count + 1), first_of("uint32", edges, kept)
    )
    return many, needed.value


def member_of(kept: Sequence[int]) -> Optional[Member]:
    """The array that refusal 19 is about, if it is one of a weighted graph."""
    return Member(kept[0]) if kept and kept[0] in (Member.NODES, Member.EDGES, Member.TERMINAL_STARTS) else None


def place_of(line: str) -> Tuple[RefusalCode, Tuple[int, ...]]:
    """The refusal of a line, and the numbers that it keeps."""
    number, *kept = numbers_of(line)
    return RefusalCode(number), tuple(kept)
