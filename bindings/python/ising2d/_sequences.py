"""Pairs and lists of whole numbers that are kept in arrays, and unpacked on access."""

from __future__ import annotations

from collections.abc import Sequence as AbstractSequence
from typing import TYPE_CHECKING, Any, Iterator, List, Optional, Sequence, Tuple, Union, overload

from ._arrays import numpy

if TYPE_CHECKING:
    from ._types import UInt32Array, UInt64Array


class Pairs(Sequence[Tuple[int, int]]):
    """Pairs of whole numbers, as the two spins of each bond: a sequence of tuples. ``numpy.asarray`` of it
    is an array of shape ``(bonds, 2)``, which is made without a copy.

    >>> import ising2d
    >>> ends = ising2d.Lattice("square", 2, 2, [3, 4, 2, -5]).ends()
    >>> ends[3], len(ends), ends
    ((1, 3), 4, Pairs([(0, 1), (2, 3), (0, 2), (1, 3)]))
    """

    def __init__(self, flat: UInt32Array) -> None:
        self._flat = flat

    def __len__(self) -> int:
        return len(self._flat) // 2

    @overload
    def __getitem__(self, place: int) -> Tuple[int, int]: ...

    @overload
    def __getitem__(self, place: slice) -> List[Tuple[int, int]]: ...

    def __getitem__(self, place: Union[int, slice]) -> Union[Tuple[int, int], List[Tuple[int, int]]]:
        if isinstance(place, slice):
            return list(self)[place]
        k = range(len(self))[place]
        return int(self._flat[2 * k]), int(self._flat[2 * k + 1])

    def __iter__(self) -> Iterator[Tuple[int, int]]:
        own = self._flat.tolist()
        return zip(own[::2], own[1::2])

    def __array__(self, dtype: Any = None, copy: Optional[bool] = None) -> UInt32Array:
        own = self._flat.reshape(-1, 2)
        found: UInt32Array = own if dtype is None and not copy else numpy.array(own, dtype=dtype)
        return found

    def __eq__(self, other: object) -> bool:
        if not isinstance(other, AbstractSequence) or isinstance(other, str):
            return NotImplemented
        return list(self) == list(other)

    def __hash__(self) -> int:
        return hash(tuple(self))

    def __repr__(self) -> str:
        return f"Pairs({list(self)})" if len(self) <= 12 else f"<{len(self)} pairs>"


class Lists(Sequence[List[int]]):
    """Lists of whole numbers, as the darts of each spin: a sequence of lists. List i is
    ``values[starts[i]:starts[i + 1]]``.

    >>> import ising2d
    >>> ising2d.Lattice("square", 1, 3, [5, 7]).darts()
    Lists([[0], [2, 1], [3]])
    """

    def __init__(self, starts: UInt64Array, values: UInt32Array) -> None:
        self.starts, self.values = starts, values

    def __len__(self) -> int:
        return len(self.starts) - 1

    @overload
    def __getitem__(self, place: int) -> List[int]: ...

    @overload
    def __getitem__(self, place: slice) -> List[List[int]]: ...

    def __getitem__(self, place: Union[int, slice]) -> Union[List[int], List[List[int]]]:
        if isinstance(place, slice):
            return list(self)[place]
        i = range(len(self))[place]
        found: List[int] = self.values[int(self.starts[i]) : int(self.starts[i + 1])].tolist()
        return found

    def __iter__(self) -> Iterator[List[int]]:
        starts, values = self.starts.tolist(), self.values.tolist()
        return (values[first:last] for first, last in zip(starts, starts[1:]))

    def __eq__(self, other: object) -> bool:
        if not isinstance(other, AbstractSequence) or isinstance(other, str):
            return NotImplemented
        return list(self) == list(other)

    def __hash__(self) -> int:
        return hash(tuple(tuple(own) for own in self))

    def __repr__(self) -> str:
        return f"Lists({list(self)})" if len(self.values) <= 24 else f"<{len(self)} lists>"
