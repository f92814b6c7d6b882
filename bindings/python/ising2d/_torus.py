"""Spin glasses on a torus: the least energy over the four boundary conditions, as a minimum T-join."""

from __future__ import annotations

from dataclasses import dataclass
from functools import cached_property
from typing import TYPE_CHECKING, Any, List, NamedTuple, Sequence, Tuple

from ._answers import Join
from ._arrays import as_array, is_numpy, listed_of, shortened, whole, whole_numbers
from ._networks import Network
from ._types import Whole
from ._verdicts import Answer, Verdict

if TYPE_CHECKING:
    from ._types import Int8Array, Int64Array, Integers, TorusCouplings


class Boundary(NamedTuple):
    """The boundary conditions of a torus: whether the couplings from the last column to the first, and those
    from the last row to the first, have their signs changed.

    >>> Boundary(True, False).name
    'antiperiodic, periodic'
    """

    east: bool
    south: bool

    @property
    def name(self) -> str:
        """Both conditions in words, from west to east and from north to south."""
        return ", ".join("antiperiodic" if changed else "periodic" for changed in self)


class Torus:
    """A square lattice of spins on a torus: ``couplings`` are the pair (east, south) of lists or arrays of
    shape (rows, cols). ``east[r][c]`` joins spin (r, c) to (r, c + 1), and ``south[r][c]`` to (r + 1, c);
    the last column goes on in the first, and the last row in the first row. At least two rows and columns.

    A torus is no planar graph, and its ground state under fixed boundary conditions is not what is found
    here: ``extended_ground`` finds the least energy over all four of them (docs/ENCODING.md).

    >>> torus = Torus(2, 2, ([[1, -1], [1, -1]], [[1, 1], [1, 1]]))
    >>> found = torus.extended_ground()
    >>> found.energy, found.boundary.name, bool(found.check())
    (-8, 'antiperiodic, periodic', True)
    """

    def __init__(self, rows: Whole, cols: Whole, couplings: TorusCouplings) -> None:
        self.rows, self.cols = whole(rows, "rows"), whole(cols, "cols")
        if self.rows < 2 or self.cols < 2:
            raise ValueError(f"a torus of {self.rows} by {self.cols} (allowed: at least 2 rows and columns)")
        self.east, self.south = (
            _grid(part, self.rows, self.cols, name) for part, name in zip(_pair(couplings), ("east", "south"))
        )

    def __repr__(self) -> str:
        return f"<torus of {self.rows} by {self.cols} spins>"

    @property
    def n(self) -> int:
        """The number of spins; spin (r, c) has the number ``r * cols + c``."""
        return self.rows * self.cols

    @cached_property
    def couplings(self) -> Int64Array:
        """The couplings of all bonds: those to the east, row by row, then those to the south."""
        found: Int64Array = as_array([*self.east, *self.south], "int64")
        return found

    @cached_property
    def dual(self) -> Network:
        """The dual graph: a node for each square of four spins, named by the number of its spin in the
        north-west, and an edge for each bond, which it crosses, with the size of its coupling as its weight.
        Edge k crosses bond k."""
        edges: List[Tuple[int, int, int]] = []
        for r in range(self.rows):
            for c in range(self.cols):
                edges.append((self._spin(r - 1, c), self._spin(r, c), abs(self.east[self._spin(r, c)])))
        for r in range(self.rows):
            for c in range(self.cols):
                edges.append((self._spin(r, c - 1), self._spin(r, c), abs(self.south[self._spin(r, c)])))
        return Network(self.n, edges)

    @cached_property
    def frustrated(self) -> Tuple[int, ...]:
        """The squares with an odd number of negative couplings, as nodes of the dual graph."""
        return tuple(i for i in range(self.n) if self._is_frustrated(i // self.cols, i % self.cols))

    def _spin(self, r: int, c: int) -> int:
        return r % self.rows * self.cols + c % self.cols

    def _is_frustrated(self, r: int, c: int) -> bool:
        own, east, south = self._spin(r, c), self._spin(r, c + 1), self._spin(r + 1, c)
        around = self.east[own], self.east[south], self.south[own], self.south[east]
        return sum(coupling < 0 for coupling in around) % 2 == 1

    def energy_of(self, spins: Integers, boundary: Boundary = Boundary(False, False)) -> int:
        """The energy of an assignment under these boundary conditions: minus the sum of coupling times both
        spins."""
        own = whole_numbers(spins, "int8", "spins").tolist()
        if len(own) != self.n or any(value not in (1, -1) for value in own):
            raise ValueError(f"spins: expected {self.n} values of 1 and -1")
        energy = 0
        for r in range(self.rows):
            for c in range(self.cols):
                here = self._spin(r, c)
                east = -1 if boundary.east and c == self.cols - 1 else 1
                south = -1 if boundary.south and r == self.rows - 1 else 1
                energy -= own[here] * own[self._spin(r, c + 1)] * self.east[here] * east
                energy -= own[here] * own[self._spin(r + 1, c)] * self.south[here] * south
        return energy

    def extended_ground(self) -> ExtendedGround:
        """The extended ground state: the least energy over all assignments and all four boundary conditions
        (Thomas and Middleton 2007), with the conditions and an assignment that have it, and its proof.

        The bonds that such a state breaks are a minimum T-join of the frustrated squares in the dual graph
        of the torus: its ``nest`` proves that no boundary condition has less energy.
        """
        join = self.dual.tjoin(self.frustrated)
        signs = self._signs(join.edges)
        spins, boundary = self._assignment(signs)
        energy = 2 * join.weight - sum(map(abs, self.couplings.tolist()))
        return ExtendedGround(energy, as_array(spins, "int8"), boundary, join, self)

    def _signs(self, broken: Sequence[int]) -> List[int]:
        """For each bond the product of its two spins where these bonds are broken."""
        signs = [-1 if coupling < 0 else 1 for coupling in self.couplings.tolist()]
        for bond in broken:
            signs[bond] = -signs[bond]
        return signs

    def _assignment(self, signs: Sequence[int]) -> Tuple[List[int], Boundary]:
        """The spins with these products, spin 0 up, and what the products say round the torus."""
        first = [1] * self.rows
        for r in range(1, self.rows):
            first[r] = first[r - 1] * signs[self.n + self._spin(r - 1, 0)]
        spins: List[int] = []
        for value in first:
            spins.append(value)
            for _ in range(1, self.cols):
                spins.append(spins[-1] * signs[len(spins) - 1])
        east = spins[self.cols - 1] * signs[self.cols - 1] != spins[0]
        south = first[-1] * signs[self.n + self._spin(self.rows - 1, 0)] != first[0]
        return spins, Boundary(east, south)


@dataclass(frozen=True, eq=False, repr=False)
class ExtendedGround(Answer):
    """An extended ground state of a torus: the least energy over the four boundary conditions, an array of
    spins that have it under ``boundary``, and the minimum T-join of the dual graph that proves it. Other
    boundary conditions may have the same energy.

    >>> torus = Torus(2, 2, ([[1, 1], [1, 1]], [[1, 1], [1, 1]]))
    >>> found = torus.extended_ground()
    >>> found.energy, found.spins.tolist(), found.boundary
    (-8, [1, 1, 1, 1], Boundary(east=False, south=False))
    """

    energy: int
    spins: Int8Array
    boundary: Boundary
    join: Join
    torus: Torus

    def _numbers(self) -> Tuple[Any, ...]:
        return self.energy, tuple(self.spins.tolist()), self.boundary

    def __repr__(self) -> str:
        return f"<extended ground state of {self.torus!r}: energy {self.energy}, {self.boundary.name}>"

    def check(self) -> Verdict:
        """The verdict on this proof: the T-join is judged with its nest, and the spins have the energy under
        the boundary conditions."""
        verdict = self.join.check()
        if self.torus.energy_of(self.spins, self.boundary) != self.energy:
            return Verdict(3, (self.join.weight,), of="join")
        return verdict


def _pair(couplings: Any) -> Tuple[Any, Any]:
    try:
        east, south = couplings
    except (TypeError, ValueError):
        raise TypeError(
            f"couplings: expected the pair (east, south), not {shortened(couplings)}"
        ) from None
    return east, south


def _grid(part: Any, rows: int, cols: int, name: str) -> List[int]:
    """The couplings to one side, row by row."""
    what = f"couplings to the {name}"
    if is_numpy(part):
        if part.shape != (rows, cols):
            raise TypeError(f"{what}: expected the shape ({rows}, {cols}), not {part.shape}")
        found: List[int] = whole_numbers(part.reshape(-1), "int64", what).tolist()
        return found
    listed = [whole_numbers(row, "int64", what).tolist() for row in listed_of(part, what)]
    if len(listed) != rows or any(len(row) != cols for row in listed):
        raise TypeError(f"{what}: expected {rows} rows of {cols} couplings")
    return [coupling for row in listed for coupling in row]
