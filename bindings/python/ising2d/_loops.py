"""Frustrated loops as three arrays, unpacked on access."""

from __future__ import annotations

from collections.abc import Sequence as AbstractSequence
from operator import index
from typing import TYPE_CHECKING, Any, Iterable, Iterator, List, NamedTuple, Sequence, Tuple, Union, overload

from ._arrays import as_array, listed_of, numbers, refuse_unordered, shortened

if TYPE_CHECKING:
    from ._types import Int64Array, Integers, UInt32Array, UInt64Array


class Loop(NamedTuple):
    """A frustrated loop: its weight, in the unit of the couplings, and its bonds in rising order.

    >>> Loop(2, (0, 1, 2, 3)).bonds
    (0, 1, 2, 3)
    """

    weight: int
    bonds: Tuple[int, ...]


class Loops(Sequence[Loop]):
    """Loops in their order, as the library gives them: a sequence of ``Loop``.

    ``weights`` has one number of 64 bits for each loop, ``starts`` one for each loop and one more, and
    ``bonds`` the bonds of all loops: loop i has ``bonds[starts[i]:starts[i + 1]]``. A ``Loop`` is made
    only when it is asked for.

    >>> import ising2d
    >>> loops = ising2d.ground("square", 2, 2, [3, 4, 2, -5]).loops
    >>> sum(loop.weight for loop in loops), loops[0].bonds
    (4, (0, 1, 2, 3))
    """

    weights: Int64Array
    starts: UInt64Array
    bonds: UInt32Array

    def __init__(self, weights: Integers, starts: Integers, bonds: Integers) -> None:
        self.weights = numbers(weights, "int64", "weights of the loops")
        self.starts = numbers(starts, "uint64", "starts of the loops")
        self.bonds = numbers(bonds, "uint32", "bonds of the loops")

    @classmethod
    def none(cls) -> Loops:
        """No loops."""
        return cls(as_array([], "int64"), as_array([0], "uint64"), as_array([], "uint32"))

    def __len__(self) -> int:
        return len(self.weights)

    def _fit(self) -> None:
        if len(self.starts) != len(self.weights) + 1:
            raise ValueError(
                f"there are {len(self.weights)} loops and {len(self.starts)} starts, not one more"
            )

    def _loop(self, i: int) -> Loop:
        self._fit()
        own = self.bonds[int(self.starts[i]) : int(self.starts[i + 1])]
        return Loop(int(self.weights[i]), tuple(own.tolist()))

    @overload
    def __getitem__(self, place: int) -> Loop: ...

    @overload
    def __getitem__(self, place: slice) -> List[Loop]: ...

    def __getitem__(self, place: Union[int, slice]) -> Union[Loop, List[Loop]]:
        if isinstance(place, slice):
            return [self._loop(i) for i in range(*place.indices(len(self)))]
        i = index(place)
        if not -len(self) <= i < len(self):
            raise IndexError(f"there is no loop {i}: there are {len(self)}")
        return self._loop(i % len(self))

    def __iter__(self) -> Iterator[Loop]:
        self._fit()
        places, bonds = self.starts.tolist(), self.bonds.tolist()
        for i, weight in enumerate(self.weights.tolist()):
            yield Loop(weight, tuple(bonds[places[i] : places[i + 1]]))

    def __eq__(self, other: object) -> bool:
        if not isinstance(other, AbstractSequence) or isinstance(other, str):
            return NotImplemented
        return list(self) == list(other)

    def __hash__(self) -> int:
        return hash(tuple(self))

    def __repr__(self) -> str:
        if len(self) > 4:
            return f"<{len(self)} loops with {len(self.bonds)} bonds together>"
        return f"Loops({list(self)!r})"


def rows_of(loops: Iterable[Any]) -> Loops:
    """Any loops as three arrays: ``Loop`` values, or pairs of a weight and bonds."""
    if isinstance(loops, Loops):
        return loops
    refuse_unordered(loops, "loops")
    weights: List[Any] = []
    starts: List[int] = [0]
    bonds: List[Any] = []
    for loop in listed_of(loops, "loops"):
        weight, own = _parts(loop)
        weights.append(weight)
        bonds.extend(own)
        starts.append(len(bonds))
    return Loops(weights, starts, bonds)


def _parts(loop: Any) -> Tuple[Any, List[Any]]:
    """The weight of a loop, and its bonds."""
    if isinstance(loop, (tuple, list)) and len(loop) == 2:
        weight, own = loop
    elif hasattr(loop, "weight") and hasattr(loop, "bonds"):
        weight, own = loop.weight, loop.bonds
    else:
        raise TypeError(f"loops: expected a pair of a weight and bonds, not {shortened(loop)}")
    refuse_unordered(own, "bonds of a loop")
    return weight, listed_of(own, "bonds of a loop")
