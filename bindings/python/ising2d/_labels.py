"""Labels of spins and bonds, and values by their labels: computed on access, so that an answer of a
million spins is given at once."""

from __future__ import annotations

from array import array
from collections.abc import ItemsView, Mapping, ValuesView
from collections.abc import Sequence as AbstractSequence
from itertools import product
from typing import (
    TYPE_CHECKING,
    Any,
    Dict,
    Hashable,
    Iterator,
    List,
    Optional,
    Sequence,
    Tuple,
    TypeVar,
    Union,
    overload,
)

from ._arrays import is_numpy, listed_of

if TYPE_CHECKING:
    from ._types import UInt32Array

Key = TypeVar("Key", bound=Hashable)
Value = TypeVar("Value")
Entry = TypeVar("Entry")
# So many entries are shown as of a dictionary or a list.
_SHOWN = 100
# So many values are looked up by arithmetic before a dictionary is made.
_FEW = 1000


class _Made(Sequence[Entry]):
    """A sequence whose entries are computed on access. It equals any sequence with the same."""

    def _entry(self, place: int) -> Entry:
        raise NotImplementedError

    @overload
    def __getitem__(self, place: int) -> Entry: ...

    @overload
    def __getitem__(self, place: slice) -> List[Entry]: ...

    def __getitem__(self, place: Union[int, slice]) -> Union[Entry, List[Entry]]:
        places = range(len(self))[place]
        return self._entry(places) if isinstance(places, int) else [self._entry(k) for k in places]

    def __iter__(self) -> Iterator[Entry]:
        return map(self._entry, range(len(self)))

    def __eq__(self, other: object) -> bool:
        if not isinstance(other, AbstractSequence) or isinstance(other, str):
            return NotImplemented
        return len(self) == len(other) and all(mine == its for mine, its in zip(self, other))

    def __hash__(self) -> int:
        return hash(tuple(self))

    def __repr__(self) -> str:
        return repr(list(self)) if len(self) <= _SHOWN else f"<{len(self)} labels, from {self[0]} to {self[-1]}>"


class Grid(_Made[Tuple[int, int]]):
    """The row and the column of each spin of a lattice.

    >>> Grid(2, 2), Grid(1000, 1000).place((3, 4))
    ([(0, 0), (0, 1), (1, 0), (1, 1)], 3004)
    """

    def __init__(self, rows: int, cols: int) -> None:
        self.rows, self.cols = rows, cols

    def __len__(self) -> int:
        return self.rows * self.cols

    def _entry(self, place: int) -> Tuple[int, int]:
        return divmod(place, self.cols)

    def __iter__(self) -> Iterator[Tuple[int, int]]:
        return product(range(self.rows), range(self.cols))

    def place(self, label: object) -> Optional[int]:
        """The spin with this label, or none."""
        if not isinstance(label, tuple) or len(label) != 2:
            return None
        r, c = label
        if type(r) is not int or type(c) is not int:
            # As a dictionary does: numbers of other types are alike if they are equal.
            try:
                r, c = int(r), int(c)
            except (TypeError, ValueError, OverflowError):
                return None
            if (r, c) != label:
                return None
        return r * self.cols + c if 0 <= r < self.rows and 0 <= c < self.cols else None

    def __contains__(self, label: object) -> bool:
        return self.place(label) is not None


class Listed(_Made[int]):
    """The numbers of an array as those of Python.

    >>> Listed(array("I", [5, 7]))
    [5, 7]
    """

    def __init__(self, own: Any) -> None:
        self._own = own

    def __len__(self) -> int:
        return len(self._own)

    def _entry(self, place: int) -> int:
        return int(self._own[place])

    def __iter__(self) -> Iterator[int]:
        return iter(self._own.tolist())


class Ends(_Made[Hashable]):
    """The labels of the two spins of each bond, and perhaps the number of the bond behind them.

    >>> Ends(Grid(1, 3), array("I", [0, 1, 1, 2]))
    [((0, 0), (0, 1)), ((0, 1), (0, 2))]
    """

    def __init__(self, nodes: Sequence[Hashable], ends: UInt32Array, is_numbered: bool = False) -> None:
        self._nodes, self._ends, self._is_numbered = nodes, ends, is_numbered

    def __len__(self) -> int:
        return len(self._ends) // 2

    def _entry(self, place: int) -> Hashable:
        pair = self._nodes[int(self._ends[2 * place])], self._nodes[int(self._ends[2 * place + 1])]
        return (*pair, place) if self._is_numbered else pair

    def __iter__(self) -> Iterator[Hashable]:
        own, nodes = self._ends.tolist(), list(self._nodes)
        first, second = (map(nodes.__getitem__, own[side::2]) for side in (0, 1))
        return zip(first, second, range(len(self))) if self._is_numbered else zip(first, second)


class ByLabel(Mapping[Key, Value]):
    """Values by label: a read-only mapping that equals a dictionary with the same entries. ``dict(..)``
    makes a dictionary. ``items`` and ``values`` are faster than a look-up of each label.

    >>> spins = ByLabel(("left", "right"), array("b", [1, -1]))
    >>> spins, spins["right"], spins == {"left": 1, "right": -1}
    ({'left': 1, 'right': -1}, -1, True)
    """

    def __init__(self, labels: Sequence[Key], values: Any) -> None:
        self._labels, self._own = labels, _copied(values)
        self._whole: Optional[Dict[Key, Value]] = None
        self._looks = 0
        self._grid = _grid_of(labels)

    def __len__(self) -> int:
        return len(self._own)

    def __iter__(self) -> Iterator[Key]:
        return iter(self._labels)

    def __reversed__(self) -> Iterator[Key]:
        return reversed(self._labels)

    def _dictionary(self) -> Dict[Key, Value]:
        """The whole mapping as a dictionary, made once."""
        if self._whole is None:
            self._whole = self.copy()
        return self._whole

    def __getitem__(self, label: Key) -> Value:
        if self._whole is None and self._grid is not None and self._looks < _FEW:
            # A few look-ups in a large lattice need no dictionary.
            self._looks += 1
            place = self._grid.place(label)
            if place is None:
                raise KeyError(label)
            return self._listed_at(place)
        return self._dictionary()[label]

    def __contains__(self, label: object) -> bool:
        return label in (self._dictionary() if self._grid is None else self._grid)

    def _listed_at(self, place: int) -> Value:
        found: Value = self._own[place].item() if is_numpy(self._own) else self._own[place]
        return found

    def _listed(self) -> List[Value]:
        found: List[Value] = self._own if isinstance(self._own, list) else self._own.tolist()
        return found

    def items(self) -> ItemsView[Key, Value]:
        return _Items(self)

    def values(self) -> ValuesView[Value]:
        return _Values(self)

    def copy(self) -> Dict[Key, Value]:
        """A dictionary with the same entries."""
        return dict(zip(self._labels, self._listed()))

    def __or__(self, other: Mapping[Any, Any]) -> Dict[Any, Any]:
        return {**self.copy(), **other} if isinstance(other, Mapping) else NotImplemented

    def __ror__(self, other: Mapping[Any, Any]) -> Dict[Any, Any]:
        return {**other, **self.copy()} if isinstance(other, Mapping) else NotImplemented

    def __eq__(self, other: object) -> bool:
        if not isinstance(other, Mapping):
            return NotImplemented
        own = other.copy() if isinstance(other, ByLabel) else dict(other)
        return len(self) == len(other) and self.copy() == own

    def __getstate__(self) -> Tuple[Sequence[Key], Any]:
        return self._labels, self._own

    def __setstate__(self, state: Tuple[Sequence[Key], Any]) -> None:
        self._labels, self._own = state
        self._whole, self._looks, self._grid = None, 0, _grid_of(self._labels)

    def __repr__(self) -> str:
        if len(self) <= _SHOWN:
            return repr(self.copy())
        first, *others = (f"{self._labels[k]!r}: {self._listed_at(k)!r}" for k in (0, 1, 2, -1))
        return f"<{len(self)} values by label: {{{first}, {others[0]}, {others[1]}, ..., {others[2]}}}>"


def _grid_of(labels: object) -> Optional[Grid]:
    return labels if isinstance(labels, Grid) else None


def _copied(values: Any) -> Any:
    """The values as an array of one axis if they are one, and else as a list."""
    if isinstance(values, array):
        return values[:]
    if is_numpy(values) and values.ndim == 1 and values.dtype.kind != "O":
        return values.copy()
    return listed_of(values.tolist() if hasattr(values, "tolist") else values, "values")


class _Items(ItemsView[Key, Value]):
    """The entries, read from the array at once."""

    _mapping: ByLabel[Key, Value]

    def __iter__(self) -> Iterator[Tuple[Key, Value]]:
        return zip(self._mapping._labels, self._mapping._listed())


class _Values(ValuesView[Value]):
    """The values, read from the array at once."""

    _mapping: ByLabel[Any, Value]

    def __iter__(self) -> Iterator[Value]:
        return iter(self._mapping._listed())
