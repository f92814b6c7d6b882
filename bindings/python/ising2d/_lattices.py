"""The lattices: their couplings, their tables, and where their spins are drawn."""

from __future__ import annotations

import threading
from collections import OrderedDict
from typing import TYPE_CHECKING, Any, Dict, Hashable, List, Literal, Optional, Sequence, Tuple, Union

from . import _ffi
from ._arrays import in_32_bits, is_numpy, numpy, read_only, shortened, whole, whole_numbers, zeros
from ._errors import Member, Refusal, RefusalCode, words_of
from ._instances import Instance
from ._labels import Ends, Grid
from ._real import Scale, rounded
from ._types import Point, Whole

if TYPE_CHECKING:
    from ._types import Couplings, Real, Reals

KINDS = ("square", "triangular", "hexagonal", "cylinder")
Kind = Union[Literal["square", "triangular", "hexagonal", "cylinder"], Whole]

_UNKNOWN_KIND = 255
_LEAST_COLS = {"hexagonal": 2, "cylinder": 3}
_HEIGHT = 3**0.5 / 2


class Lattice(Instance):
    """A lattice with its couplings: a kind, rows and columns, and one whole number for each bond.

    ``kind`` is "square", "triangular", "hexagonal" or "cylinder". ``couplings`` has shape ``(bonds,)``,
    in any unit: first all bonds to the east, row by row, then those to the south, then the diagonals; or
    it is a pair of two-dimensional arrays of numpy, ``(east, south)``: of a square lattice of the shapes
    ``(rows, cols - 1)`` and ``(rows - 1, cols)``, of a cylinder ``(rows, cols)`` and
    ``(rows - 1, cols)``. Spin (r, c) has the number ``r * cols + c``. The couplings are copied, and a
    lattice is not changed afterwards. ``from_real`` takes real couplings.

    >>> lattice = Lattice("square", 2, 2, [3, 4, 2, -5])
    >>> lattice.ground().by_node()
    {(0, 0): 1, (0, 1): 1, (1, 0): -1, (1, 1): -1}
    >>> lattice
    Lattice('square', 2, 2, [3, 4, 2, -5])
    """

    kind: str
    rows: int
    cols: int

    def __init__(self, kind: Kind, rows: Whole, cols: Whole, couplings: Couplings) -> None:
        name = _kind_of(kind)
        own_rows, own_cols = in_32_bits(rows, "rows"), in_32_bits(cols, "cols")
        flat = _flat(couplings, name, own_rows, own_cols)
        self._made(name, own_rows, own_cols, whole_numbers(flat, "int64", "couplings"), None)

    def _made(self, kind: str, rows: int, cols: int, couplings: Any, scale: Optional[Scale]) -> None:
        self._set(
            kind=kind, rows=rows, cols=cols, n=rows * cols, couplings=read_only(couplings), scale=scale
        )

    @classmethod
    def from_real(
        cls, kind: Kind, rows: Whole, cols: Whole, couplings: Reals, scale: Optional[Real] = None
    ) -> Lattice:
        """A lattice with real couplings: floats, ints or fractions, in the order of the bonds. They are
        multiplied by ``scale`` and rounded to the nearest whole numbers; without ``scale`` the largest
        power of two is taken that keeps the sum of the sizes within 2**44. Answers are those of the
        whole numbers; ``real`` of a ground state and of a wall, ``real_costs`` and ``real_ranges`` have
        them in the unit of the real couplings, with rigorous bounds. Raises ``ValueError`` for nan and
        inf, and for a scale that is too large or rounds all couplings to 0.

        >>> found = Lattice.from_real("square", 2, 2, [0.3, 0.4, 0.2, -0.5]).ground()
        >>> round(found.real.energy, 9), found.broken()
        (-1.0, [2])
        """
        found = rounded(_flat(couplings, _kind_of(kind), rows, cols), scale)
        own = cls.__new__(cls)
        own._made(
            _kind_of(kind), in_32_bits(rows, "rows"), in_32_bits(cols, "cols"), found.couplings, found.scale
        )
        return own

    def _with(self, couplings: Any, scale: Optional[Scale]) -> Lattice:
        own = Lattice.__new__(Lattice)
        own._made(self.kind, self.rows, self.cols, couplings, scale)
        return own

    def __repr__(self) -> str:
        own = ", ".join(map(str, self.couplings[:12].tolist()))
        dots = ", ..." if len(self.couplings) > 12 else ""
        return f"Lattice({self.kind!r}, {self.rows}, {self.cols}, [{own}{dots}])"

    def title(self) -> str:
        form = "cylinder" if self.kind == "cylinder" else f"{self.kind} lattice"
        return f"a {form} of {self.rows} by {self.cols}"

    def _compared(self) -> Tuple[str, int, int, bytes, Optional[Scale]]:
        return (self.kind, self.rows, self.cols, self.couplings.tobytes(), self.scale)

    def __eq__(self, other: object) -> bool:
        if not isinstance(other, Lattice):
            return NotImplemented
        return self._compared() == other._compared()

    def __hash__(self) -> int:
        return hash(self._compared())

    def _tables(self) -> _ffi.Tables:
        self._fit()
        return tables_of(self.kind, self.rows, self.cols)

    def _numbers_within(self, most: int) -> _ffi.Numbers:
        if self._is_fit(most):
            found = tables_of(self.kind, self.rows, self.cols)
        else:
            found = _ffi.lattice_tables(self._sizes(), self.couplings, most, self)
        return _ffi.Numbers(found.n, found.ends, self.couplings, found.starts, found.darts, found.seam)

    def _sizes(self) -> _ffi.Sizes:
        number = KINDS.index(self.kind) if self.kind in KINDS else _UNKNOWN_KIND
        return _ffi.Sizes(number, self.rows, self.cols)

    def _is_fit(self, most: int) -> bool:
        """Whether the library refuses nothing of it; else the library is asked what it refuses."""
        known = self.__dict__.get("_fit_below")
        if known is None:
            known = self._refused_from()
            self._set(_fit_below=known)
        return self.n <= most and self.n < known

    def _refused_from(self) -> int:
        """0 where something is wrong that does not depend on the limit, else a number above it."""
        is_size = self.kind in KINDS and self.rows >= 1 and self.cols >= _LEAST_COLS.get(self.kind, 1)
        if not is_size or self.n > _ffi.MOST_SPINS:
            return 0
        if len(self.couplings) != bond_count(self.kind, self.rows, self.cols):
            return 0
        own = self.couplings
        least = (own.min() if is_numpy(own) else min(own)) if len(own) else 0
        return _ffi.MOST_SPINS + 1 if int(least) > -(2**63) else 0

    def as_json(self) -> Dict[str, object]:
        return {
            "kind": self.kind,
            "rows": self.rows,
            "cols": self.cols,
            "couplings": self.couplings.tolist(),
        }

    def _shown(self, number: int, kept: Sequence[int]) -> Optional[str]:
        if number != RefusalCode.BAD_MEMBER:
            return None
        values = {Member.KIND: repr(self.kind), Member.ROWS: str(self.rows), Member.COLS: str(self.cols)}
        if kept[0] == Member.COUPLINGS and kept[1] < len(self.couplings):
            return str(int(self.couplings[kept[1]]))
        return values.get(Member(kept[0])) if kept[0] in set(Member) else None

    def _fit(self) -> None:
        """Raises a ``Refusal`` for a lattice that has no tables."""
        number = RefusalCode.BAD_MEMBER
        if self.kind not in KINDS:
            raise Refusal(number, (Member.KIND, 0), repr(self.kind))
        if self.rows < 1:
            raise Refusal(number, (Member.ROWS, 0), str(self.rows))
        if self.cols < _LEAST_COLS.get(self.kind, 1):
            raise Refusal(number, (Member.COLS, 0), str(self.cols))
        if self.n > _ffi.MOST_SPINS:
            number = RefusalCode.TOO_MANY_SPINS
            raise Refusal(number, (self.n,), words=words_of("large", number, (self.n,)))

    def node_labels(self) -> Sequence[Hashable]:
        self._fit()
        return Grid(self.rows, self.cols)

    def edge_labels(self) -> Sequence[Hashable]:
        return Ends(self.node_labels(), self._tables().ends)

    def places(self) -> Optional[List[Point]]:
        """Rows grow to the south and columns to the east; a triangular lattice leans, so that all its
        bonds are alike, and a hexagonal one is a wall of bricks."""
        self._fit()
        if self.kind == "triangular":
            return [(c - r / 2, r * _HEIGHT) for r in range(self.rows) for c in range(self.cols)]
        return [(float(c), float(r)) for r in range(self.rows) for c in range(self.cols)]

    def has_places(self) -> bool:
        return self.kind in KINDS and self.n <= _ffi.MOST_SPINS

    def period(self) -> int:
        return self.cols if self.kind == "cylinder" else 0


def _kind_of(kind: Kind) -> str:
    """The name of a kind; of a number that is none, the number as a text."""
    if isinstance(kind, str):
        return kind
    try:
        number = whole(kind, "kind")
    except TypeError:
        raise TypeError(f"kind: expected one of {', '.join(KINDS)}, not {shortened(kind)}") from None
    return KINDS[number] if 0 <= number < len(KINDS) else str(number)


def _flat(couplings: Any, kind: str, rows: Any, cols: Any) -> Any:
    """The couplings on one axis: themselves, or those of a pair of arrays, whose shapes are tested."""
    if not (isinstance(couplings, (tuple, list)) and len(couplings) == 2):
        return couplings
    if not all(is_numpy(part) and part.ndim > 0 for part in couplings):
        return couplings
    if kind not in ("square", "cylinder"):
        raise TypeError(f"couplings: a pair of arrays is of a square lattice or a cylinder, not {kind}")
    r, c = whole(rows, "rows"), whole(cols, "cols")
    wanted = (r, c - (kind == "square")), (max(r - 1, 0), c)
    east, south = couplings
    for name, part, shape in (("east", east, wanted[0]), ("south", south, wanted[1])):
        if part.shape != shape:
            raise TypeError(f"couplings: expected {name} of shape {shape}, not {part.shape}")
    return numpy.concatenate((east.ravel(), south.ravel()))


def bond_count(kind: str, rows: int, cols: int) -> int:
    """The number of bonds of a lattice.

    >>> bond_count("cylinder", 1, 3), bond_count("hexagonal", 3, 3)
    (3, 9)
    """
    east = rows * (cols if kind == "cylinder" else cols - 1)
    if kind == "hexagonal":
        # Of two rows the even one has half of its bonds to the south, rounded up, the odd one the rest.
        return east + (rows - 1) // 2 * cols + (rows - 1) % 2 * ((cols + 1) // 2)
    return east + (rows - 1) * cols + (kind == "triangular") * (rows - 1) * (cols - 1)


class _Cache:
    """The tables that were asked for last: at most so many, with at most so many spins together. One of
    more spins is not kept for long."""

    _MOST, _SPINS = 64, 2**21

    def __init__(self) -> None:
        self.lock = threading.Lock()
        self.kept: OrderedDict[Tuple[str, int, int], _ffi.Tables] = OrderedDict()

    def get(self, key: Tuple[str, int, int]) -> _ffi.Tables:
        with self.lock:
            found = self.kept.get(key)
            if found is not None:
                self.kept.move_to_end(key)
                return found
        found = _tables(*key)
        with self.lock:
            self.kept[key] = found
            while len(self.kept) > 1 and self._is_full():
                self.kept.popitem(last=False)
        return found

    def _is_full(self) -> bool:
        spins = sum(rows * cols for _, rows, cols in self.kept)
        return len(self.kept) > self._MOST or spins > self._SPINS


def _tables(kind: str, rows: int, cols: int) -> _ffi.Tables:
    couplings = zeros("int64", bond_count(kind, rows, cols))
    return _ffi.lattice_tables(_ffi.Sizes(KINDS.index(kind), rows, cols), couplings, _ffi.MOST_SPINS, None)


_CACHE = _Cache()


def tables_of(kind: str, rows: int, cols: int) -> _ffi.Tables:
    """The tables of a lattice, which do not depend on the couplings. The library makes them."""
    return _CACHE.get((kind, rows, cols))
